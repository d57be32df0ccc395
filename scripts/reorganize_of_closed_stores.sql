-- CLOSED stores are compressed, the lowest one first, whatever stands in WITH. A store with rows that have ended since it was closed, too.
setup CREATE TABLE t (k int NOT NULL PRIMARY KEY, v int NULL)
s1 INSERT INTO t VALUES (1, 10), (2, 20)
s1 INSERT INTO t VALUES (3, 30), (4, 40)
s1 INSERT INTO t VALUES (5, 50), (6, 60)
s1 SELECT * FROM sys.dm_db_column_store_row_group_physical_stats
s1 ALTER INDEX ALL ON t REORGANIZE
s1 SELECT * FROM sys.dm_db_column_store_row_group_physical_stats
s1 INSERT INTO t VALUES (7, 70), (8, 80)
s1 ALTER INDEX ALL ON t REORGANIZE WITH (COMPRESS_ALL_ROW_GROUPS = OFF)
s1 SELECT * FROM sys.dm_db_column_store_row_group_physical_stats
s1 INSERT INTO t VALUES (9, 90), (10, 100)
s1 ALTER INDEX ALL ON t REORGANIZE WITH (COMPRESS_ALL_ROW_GROUPS = ON)
s1 SELECT * FROM sys.dm_db_column_store_row_group_physical_stats
s1 INSERT INTO t VALUES (11, 110), (12, 120)
s1 DELETE FROM t WHERE k IN (10, 11)
s1 ALTER INDEX ALL ON t REORGANIZE
s1 SELECT * FROM sys.dm_db_column_store_row_group_physical_stats
s1 SELECT * FROM t
