-- What a new group keeps is judged by the floor of its claim: a snapshot that ends before the install changes nothing.
setup CREATE TABLE t (k int NOT NULL PRIMARY KEY, v int NULL)
s1 INSERT INTO t VALUES (1, 10), (2, 20)
s2 BEGIN TRAN
s2 SELECT COUNT(*) FROM t
s1 DELETE FROM t WHERE k = 1
m1>
s2 COMMIT
s1 DELETE FROM t WHERE k = 2
m1<
s1 SELECT * FROM t
s1 SELECT * FROM sys.dm_db_column_store_row_group_physical_stats
m1
m1
s1 SELECT * FROM sys.dm_db_column_store_row_group_physical_stats
