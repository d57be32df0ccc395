-- One statement deletes a row of a packed group, one of a full store and one of the open store: the first two ends are entries of
-- the buffer, the third stands in the store.
setup CREATE TABLE t (k int NOT NULL PRIMARY KEY, v int NULL)
s1 INSERT INTO t SELECT value, value * 10 FROM GENERATE_SERIES(1, 3)
s1 INSERT INTO t VALUES (4, 40), (5, 50)
s1 INSERT INTO t VALUES (6, 60)
s1 INSERT INTO t VALUES (7, 70), (8, 80)
s2 BEGIN TRAN
s2 SELECT COUNT(*), SUM(v) FROM t
s1 DELETE FROM t WHERE k IN (2, 5, 7)
s1 SELECT * FROM sys.dm_db_column_store_row_group_physical_stats
s1 SELECT * FROM t
m1
m1
s1 SELECT * FROM sys.dm_db_column_store_row_group_physical_stats
s2 SELECT COUNT(*), SUM(v) FROM t
s1 SELECT * FROM t
