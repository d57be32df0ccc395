-- A REORGANIZE is no statement of the table: it draws no number of a transaction, whole or half done, so that transaction 2 is the one of
-- session 2, and 4 that of session 1. It takes no snapshot: the one of session 3 comes with its SELECT.
setup CREATE TABLE t (k int NOT NULL PRIMARY KEY, v int NULL)
s1 INSERT INTO t VALUES (1, 10), (2, 20)
s1 ALTER INDEX ALL ON t REORGANIZE
s2> ALTER INDEX ALL ON t REORGANIZE
s2<
s2 BEGIN TRAN
s2 UPDATE t SET v = 11 WHERE k = 1
s1 UPDATE t SET v = 12 WHERE k = 1
s2 COMMIT
s1 BEGIN TRAN
s1 UPDATE t SET v = 12 WHERE k = 2
s2 UPDATE t SET v = 12 WHERE k = 2
s1 ROLLBACK
s3 BEGIN TRAN
s3 ALTER INDEX ALL ON t REORGANIZE WITH (COMPRESS_ALL_ROW_GROUPS = ON)
s1 UPDATE t SET v = 13 WHERE k = 1
s3 SELECT * FROM t
s1 UPDATE t SET v = 14 WHERE k = 1
s3 SELECT * FROM t
s3 ALTER INDEX ALL ON t REORGANIZE
s3 UPDATE t SET v = 15 WHERE k = 1
s3 ALTER INDEX ALL ON t REORGANIZE
s3 COMMIT
s3 SELECT * FROM sys.dm_db_column_store_row_group_physical_stats
