-- Statements that are half done hold the floor, so that a REORGANIZE between their Start and their Finish keeps what they read; they
-- reply as without it. A COMMIT behind it acts on the groups that are there then.
setup CREATE TABLE t (k int NOT NULL PRIMARY KEY, v int NULL)
s1 INSERT INTO t VALUES (1, 10), (2, 20), (3, 30), (4, 40)
s1 INSERT INTO t VALUES (5, 50), (6, 60)
s2> SELECT * FROM t
s3> UPDATE t SET v = v + 1 WHERE k <= 2
s1 DELETE FROM t WHERE k IN (3, 5)
s1 ALTER INDEX ALL ON t REORGANIZE WITH (COMPRESS_ALL_ROW_GROUPS = ON)
s1 SELECT * FROM sys.dm_db_column_store_row_group_physical_stats
s2<
s3<
s1 SELECT * FROM sys.dm_db_column_store_row_group_physical_stats
s1 ALTER INDEX ALL ON t REORGANIZE
s1 SELECT * FROM sys.dm_db_column_store_row_group_physical_stats
s4 BEGIN TRAN
s4 UPDATE t SET v = 0 WHERE k >= 4
s1 ALTER INDEX ALL ON t REORGANIZE
s4> COMMIT
s1 ALTER INDEX ALL ON t REORGANIZE
s4<
s1 SELECT * FROM sys.dm_db_column_store_row_group_physical_stats
s1 ALTER INDEX ALL ON t REORGANIZE WITH (COMPRESS_ALL_ROW_GROUPS = ON)
s1 SELECT * FROM sys.dm_db_column_store_row_group_physical_stats
s1 SELECT * FROM t
