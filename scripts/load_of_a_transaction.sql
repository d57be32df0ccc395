-- The rows of all statements of a transaction are loaded together, updated ones too; a row that it deleted again is none.
setup CREATE TABLE t (k int NOT NULL PRIMARY KEY, v int NULL)
s1 INSERT INTO t VALUES (1, 10), (2, 20)
s1 BEGIN TRAN
s1 INSERT INTO t VALUES (4, 40), (3, 30), (9, 90)
s1 UPDATE t SET v = v + 1 WHERE k <= 2
s1 DELETE FROM t WHERE k = 9
s1 SELECT * FROM sys.dm_db_column_store_row_group_physical_stats
s1 COMMIT
s1 SELECT * FROM sys.dm_db_column_store_row_group_physical_stats
s1 SELECT * FROM t
