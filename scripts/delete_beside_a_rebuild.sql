-- A row is deleted while its group is made anew, beside a snapshot that reads what it read first.
setup CREATE TABLE t (k int NOT NULL PRIMARY KEY, v int NULL)
s1 INSERT INTO t VALUES (1, 10), (2, 20), (3, 30), (4, 40)
s1 DELETE FROM t WHERE k = 1
m1
s2 BEGIN TRAN
s2 SELECT * FROM t
s1 UPDATE t SET v = 21 WHERE k = 2
m1
m2>
s1 DELETE FROM t WHERE k = 3
m2<
s2 SELECT * FROM t
s1 SELECT * FROM t
s1 SELECT * FROM sys.dm_db_column_store_row_group_physical_stats
