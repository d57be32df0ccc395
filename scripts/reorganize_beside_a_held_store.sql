-- A CLOSED store that mover 1 has claimed is left, with its mover: session 1 and mover 1 are two. A store that nobody has claimed is
-- compressed beside it.
setup CREATE TABLE t (k int NOT NULL PRIMARY KEY, v int NULL)
s1 INSERT INTO t VALUES (1, 10), (2, 20)
m1>
s1 ALTER INDEX ALL ON t REORGANIZE
s1 SELECT * FROM sys.dm_db_column_store_row_group_physical_stats
s1 INSERT INTO t VALUES (3, 30), (4, 40)
s1 ALTER INDEX ALL ON t REORGANIZE
s1 SELECT * FROM sys.dm_db_column_store_row_group_physical_stats
s1 INSERT INTO t VALUES (5, 50)
s1 ALTER INDEX ALL ON t REORGANIZE WITH (COMPRESS_ALL_ROW_GROUPS = ON)
s1 SELECT * FROM sys.dm_db_column_store_row_group_physical_stats
m1<
s1 ALTER INDEX ALL ON t REORGANIZE
s1 SELECT * FROM sys.dm_db_column_store_row_group_physical_stats
