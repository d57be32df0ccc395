-- A report draws no transaction number, takes no snapshot and shows the groups as they are at its finish, whatever its session
-- has read or written.
setup CREATE TABLE t (k int NOT NULL PRIMARY KEY, v int NULL)
s1 INSERT INTO t VALUES (1, 10)
s2 BEGIN TRAN
s2 SELECT COUNT(*) FROM t
s2 UPDATE t SET v = 11
s2> SELECT * FROM sys.dm_db_column_store_row_group_physical_stats
s1 INSERT INTO t VALUES (2, 20)
m1>
s2<
m1<
s3 BEGIN TRAN
s3 SELECT * FROM sys.dm_db_column_store_row_group_physical_stats
s1 INSERT INTO t VALUES (3, 30)
s3 SELECT COUNT(*) FROM t
s1 UPDATE t SET v = 12 WHERE k = 1
s2 COMMIT
s2 SELECT * FROM sys.dm_db_column_store_row_group_physical_stats
