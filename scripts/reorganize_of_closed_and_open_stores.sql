-- With an OPEN store behind CLOSED ones: OFF leaves it OPEN, and the next rows go into it. ON closes it first of all, and it is
-- compressed behind the others.
setup CREATE TABLE t (k int NOT NULL PRIMARY KEY, v int NULL)
s1 INSERT INTO t VALUES (1, 10), (2, 20), (3, 30)
s1 INSERT INTO t VALUES (4, 40), (5, 50), (6, 60), (7, 70)
s1 SELECT * FROM sys.dm_db_column_store_row_group_physical_stats
s1 ALTER INDEX ALL ON t REORGANIZE WITH (COMPRESS_ALL_ROW_GROUPS = OFF)
s1 SELECT * FROM sys.dm_db_column_store_row_group_physical_stats
s1 INSERT INTO t VALUES (8, 80), (9, 90), (10, 100), (11, 110)
s1 SELECT * FROM sys.dm_db_column_store_row_group_physical_stats
s1 ALTER INDEX ALL ON t REORGANIZE WITH (COMPRESS_ALL_ROW_GROUPS = ON)
s1 SELECT * FROM sys.dm_db_column_store_row_group_physical_stats
s1 SELECT * FROM t
