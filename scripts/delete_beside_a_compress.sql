-- A row is deleted while its store is being packed: its end stands in the buffer, and an old snapshot reads the row on.
setup CREATE TABLE t (k int NOT NULL PRIMARY KEY, v int NULL)
s1 INSERT INTO t VALUES (1, 10), (2, 20)
s2 BEGIN TRAN
s2 SELECT COUNT(*) FROM t
m1>
s1 DELETE FROM t WHERE k = 1
m1<
s3 SELECT * FROM t
s2 SELECT * FROM t
s3 SELECT * FROM sys.dm_db_column_store_row_group_physical_stats
