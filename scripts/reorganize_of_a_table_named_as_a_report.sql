-- A table with a report's name: REORGANIZE is of the table, whatever stands before its name. The other report's name is no table's.
setup CREATE TABLE column_store_segments (k int NOT NULL PRIMARY KEY, v int NULL)
s1 INSERT INTO column_store_segments VALUES (1, 10), (2, 20), (3, 30)
s1 ALTER INDEX ALL ON sys.column_store_segments REORGANIZE
s1 SELECT * FROM sys.dm_db_column_store_row_group_physical_stats
s1 ALTER INDEX ALL ON column_store_segments REORGANIZE WITH (COMPRESS_ALL_ROW_GROUPS = ON)
s1 SELECT * FROM sys.dm_db_column_store_row_group_physical_stats
s1 ALTER INDEX ALL ON sys.dm_db_column_store_row_group_physical_stats REORGANIZE
