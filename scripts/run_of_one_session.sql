-- One session and no mover: the lines are run in their order, and a full store stays as it is.
setup CREATE TABLE t (k int NOT NULL PRIMARY KEY, v int NULL)
s7 INSERT INTO t VALUES (1, 10), (2, 20), (3, NULL)
s7 BEGIN TRAN
s7 DELETE FROM t WHERE k = 1
s7 SELECT * FROM t
s7 SELECT * FROM sys.dm_db_column_store_row_group_physical_stats
s7 ROLLBACK
s7 INSERT INTO t VALUES (3, 30)
s7 UPDATE t SET v = v + 1 WHERE k = 2
s7 SELECT COUNT(*), SUM(v) FROM t
s7 SELECT * FROM sys.dm_db_column_store_row_group_physical_stats
