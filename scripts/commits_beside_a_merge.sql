-- Beside a merge: a row of each source is changed, one is deleted, another group is loaded, and another mover compresses.
setup CREATE TABLE t (k int NOT NULL PRIMARY KEY, v int NULL)
s1 INSERT INTO t VALUES (1, 10), (2, 20)
s1 INSERT INTO t VALUES (3, 30), (4, 40)
s2 BEGIN TRAN
s2 SELECT COUNT(*), SUM(v) FROM t
m1>
s1 UPDATE t SET v = 11 WHERE k = 1
s1 DELETE FROM t WHERE k = 3
s1 INSERT INTO t VALUES (5, 50), (6, 60)
s1 SELECT * FROM sys.dm_db_column_store_row_group_physical_stats
m2
s2 SELECT * FROM t
m1<
s2 SELECT * FROM t
s1 SELECT * FROM t
s1 SELECT * FROM sys.dm_db_column_store_row_group_physical_stats
m2
s1 SELECT * FROM t
s1 SELECT * FROM sys.dm_db_column_store_row_group_physical_stats
