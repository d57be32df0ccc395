-- A key is deleted and inserted again under an old snapshot; each reader has its own version, before and after the flush.
setup CREATE TABLE t (k int NOT NULL PRIMARY KEY, v int NULL)
s1 INSERT INTO t VALUES (1, 10), (2, 20)
s2 BEGIN TRAN
s2 SELECT COUNT(*) FROM t
s1 DELETE FROM t WHERE k = 1
s1 INSERT INTO t VALUES (1, 11), (3, 30)
m1
m1
m1
s2 SELECT * FROM t
s3 SELECT * FROM t
s3 SELECT * FROM sys.dm_db_column_store_row_group_physical_stats
m1
