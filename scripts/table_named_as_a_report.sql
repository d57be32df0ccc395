-- A table with a report's name: behind `sys.` a SELECT reads the report, and in any other form than `SELECT * FROM` it is refused;
-- elsewhere, and in each write, the name is the table's.
setup CREATE TABLE column_store_segments (k int NOT NULL PRIMARY KEY, v int NULL)
s1 INSERT INTO sys.column_store_segments VALUES (1, 10), (2, 20)
s1 SELECT * FROM column_store_segments
s1 SELECT * FROM dbo.column_store_segments WHERE k = 1
s1 SELECT * FROM sys.column_store_segments
s1 SELECT COUNT(*) FROM sys.column_store_segments
s1 SELECT * FROM sys.column_store_segments WHERE k = 1
s1 SELECT COUNT(*), SUM(v) FROM column_store_segments
s1 UPDATE sys.column_store_segments SET v = 21 WHERE k = 2
s1 DELETE FROM [sys].[Column_Store_Segments] WHERE k = 1
m1
s1 SELECT * FROM [Sys].COLUMN_STORE_SEGMENTS
s1 SELECT * FROM sys.dm_db_column_store_row_group_physical_stats
s1 SELECT * FROM dm_db_column_store_row_group_physical_stats
s1 INSERT INTO sys.dm_db_column_store_row_group_physical_stats VALUES (3, 30)
s1 SELECT * FROM Column_Store_Segments
