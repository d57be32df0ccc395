-- A compress under an older snapshot keeps a version that has ended, with the number of its end in the new group's bitmap: the older
-- snapshot reads it, and later ones don't. When that snapshot is gone, later turns flush the other end and rebuild the group without
-- either.
setup CREATE TABLE t (k int NOT NULL PRIMARY KEY, v int NULL)
s1 INSERT INTO t VALUES (1, 10), (2, 20)
s2 BEGIN TRAN
s2 SELECT * FROM t
s1 UPDATE t SET v = 11 WHERE k = 1
s1 SELECT * FROM sys.dm_db_column_store_row_group_physical_stats
m1
s1 SELECT * FROM sys.dm_db_column_store_row_group_physical_stats
s2 SELECT * FROM t
s1 SELECT * FROM t
s1 DELETE FROM t WHERE k = 2
s2 SELECT * FROM t
s1 SELECT * FROM t
s2 COMMIT
s3 SELECT * FROM t
m1
s1 SELECT * FROM sys.dm_db_column_store_row_group_physical_stats
s3 SELECT * FROM t
m1
m1
s1 SELECT * FROM sys.dm_db_column_store_row_group_physical_stats
s3 SELECT * FROM t
