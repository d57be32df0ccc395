-- An OPEN store in which all versions have ended is closed with ON as any other, and compressed to no group.
setup CREATE TABLE t (k int NOT NULL PRIMARY KEY, v int NULL)
s1 INSERT INTO t VALUES (1, 10), (2, 20)
s1 UPDATE t SET v = 21 WHERE k = 2
s1 DELETE FROM t
s1 SELECT * FROM sys.dm_db_column_store_row_group_physical_stats
s1 ALTER INDEX ALL ON t REORGANIZE WITH (COMPRESS_ALL_ROW_GROUPS = ON)
s1 SELECT * FROM sys.dm_db_column_store_row_group_physical_stats
-- Here one version is read by session 2, and stays with its end.
s1 INSERT INTO t VALUES (3, 30), (4, 40)
s2 BEGIN TRAN
s2 SELECT * FROM t
s1 DELETE FROM t WHERE k = 3
s1 ALTER INDEX ALL ON t REORGANIZE WITH (COMPRESS_ALL_ROW_GROUPS = ON)
s1 SELECT * FROM sys.dm_db_column_store_row_group_physical_stats
s2 SELECT * FROM t
s1 SELECT * FROM t
s2 COMMIT
-- Now nobody reads it: one of two versions is a tenth and more.
s1 ALTER INDEX ALL ON t REORGANIZE
s1 SELECT * FROM sys.dm_db_column_store_row_group_physical_stats
