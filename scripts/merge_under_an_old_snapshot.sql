-- A merge keeps the versions that an old snapshot reads; once it is gone they are removable.
setup CREATE TABLE t (k int NOT NULL PRIMARY KEY, v int NULL)
s1 INSERT INTO t VALUES (1, 10), (2, 20)
s2 BEGIN TRAN
s2 SELECT COUNT(*) FROM t
s1 UPDATE t SET v = 11
m1
m1
m1
s2 SELECT * FROM t
s1 SELECT * FROM t
s1 SELECT * FROM sys.dm_db_column_store_row_group_physical_stats
s2 COMMIT
m1
s1 SELECT * FROM t
s1 SELECT * FROM sys.dm_db_column_store_row_group_physical_stats
