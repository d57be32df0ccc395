-- The same groups of four from the least keys on, while at least three rows are left: keys that fall and keys that rise, at once and within a
-- transaction.
setup CREATE TABLE t (k int NOT NULL PRIMARY KEY, v int NULL)
s1 INSERT INTO t SELECT 11 - value, 11 - value FROM GENERATE_SERIES(1, 10)
s1 INSERT INTO t SELECT value, value FROM GENERATE_SERIES(11, 17)
s1 BEGIN TRAN
s1 INSERT INTO t SELECT value, value FROM GENERATE_SERIES(21, 27)
s1 COMMIT
s1 SELECT * FROM sys.dm_db_column_store_row_group_physical_stats
s1 SELECT * FROM sys.column_store_segments
s1 SELECT COUNT(*), SUM(k), SUM(v) FROM t
