-- A REORGANIZE inside a transaction moves groups, and the transaction goes on: before its snapshot, under it, and after own writes, which are
-- in no group. Its own snapshot holds the floor, so what ended above that is kept.
setup CREATE TABLE t (k int NOT NULL PRIMARY KEY, v int NULL)
s1 INSERT INTO t VALUES (1, 10), (2, 20), (3, 30), (4, 40)
s1 INSERT INTO t VALUES (5, 50), (6, 60)
s2 BEGIN TRAN
s2 ALTER INDEX ALL ON t REORGANIZE WITH (COMPRESS_ALL_ROW_GROUPS = ON)
s2 SELECT * FROM sys.dm_db_column_store_row_group_physical_stats
s1 DELETE FROM t WHERE k = 1
s2 SELECT * FROM t
s1 DELETE FROM t WHERE k = 2
s2 ALTER INDEX ALL ON t REORGANIZE
s2 SELECT * FROM sys.dm_db_column_store_row_group_physical_stats
s2 UPDATE t SET v = 31 WHERE k = 3
s2 INSERT INTO t VALUES (9, 90)
s2 ALTER INDEX ALL ON t REORGANIZE WITH (COMPRESS_ALL_ROW_GROUPS = ON)
s2 SELECT * FROM sys.dm_db_column_store_row_group_physical_stats
s2 SELECT * FROM t
s2 UPDATE t SET v = 22 WHERE k = 2
s2 COMMIT
s2 BEGIN TRAN
s2 INSERT INTO t VALUES (9, 90)
s2 ALTER INDEX ALL ON t REORGANIZE
s2 ROLLBACK
s2 ALTER INDEX ALL ON t REORGANIZE
s2 SELECT * FROM sys.dm_db_column_store_row_group_physical_stats
s2 SELECT * FROM t
