-- A report is read by `SELECT * FROM` its name alone: each other form is refused at its first word, whatever else is wrong with it.
setup CREATE TABLE t (k int NOT NULL PRIMARY KEY, v int NULL)
s1 INSERT INTO t VALUES (1, 10)
s1 SELECT k FROM sys.column_store_segments
s1 SELECT COUNT(*) FROM sys.column_store_segments
s1 SELECT * FROM sys.column_store_segments WHERE k = 1
s1 SELECT * FROM sys.column_store_segments ORDER BY k
s1 SELECT v, COUNT(*) FROM sys.column_store_segments GROUP BY v
s1 SELECT x FROM sys.column_store_segments
s1 SELECT k FROM sys.dm_db_column_store_row_group_physical_stats
s1 SELECT COUNT(*) FROM sys.dm_db_column_store_row_group_physical_stats
s1 SELECT * FROM sys.dm_db_column_store_row_group_physical_stats WHERE k = 1
s1 SELECT * FROM sys.dm_db_column_store_row_group_physical_stats ORDER BY k
s1 SELECT v, COUNT(*) FROM sys.dm_db_column_store_row_group_physical_stats GROUP BY v
s1 SELECT * FROM sys.dm_db_column_store_row_group_physical_stats WHERE x = 'y'
s1 SELECT * FROM sys.dm_db_column_store_row_group_physical_stats
s1 SELECT * FROM sys.column_store_segments
