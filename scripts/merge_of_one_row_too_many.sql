-- Two groups whose rows are one too many for a group stay; a row of theirs that is gone counts once no snapshot sees it.
setup CREATE TABLE t (k int NOT NULL PRIMARY KEY, v int NULL)
s1 INSERT INTO t SELECT value, value FROM GENERATE_SERIES(1, 12)
s1 INSERT INTO t SELECT value, value FROM GENERATE_SERIES(21, 29)
m1
s2 BEGIN TRAN
s2 SELECT COUNT(*), SUM(v) FROM t
s1 DELETE FROM t WHERE k = 1
m1
m1
s1 SELECT * FROM sys.dm_db_column_store_row_group_physical_stats
s2 SELECT COUNT(*), SUM(v) FROM t
s2 COMMIT
m1
m1
s1 SELECT * FROM sys.dm_db_column_store_row_group_physical_stats
s1 SELECT COUNT(*), SUM(v) FROM t
