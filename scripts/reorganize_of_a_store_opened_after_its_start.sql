-- With ON the store is closed that is OPEN where the REORGANIZE is finished, though another one was OPEN at its Start, or none.
setup CREATE TABLE t (k int NOT NULL PRIMARY KEY, v int NULL)
s2> ALTER INDEX ALL ON t REORGANIZE WITH (COMPRESS_ALL_ROW_GROUPS = ON)
s1 INSERT INTO t VALUES (1, 10), (2, 20)
s2<
s2 SELECT * FROM sys.dm_db_column_store_row_group_physical_stats
s1 INSERT INTO t VALUES (3, 30)
s2> ALTER INDEX ALL ON t REORGANIZE WITH (COMPRESS_ALL_ROW_GROUPS = ON)
s1 INSERT INTO t VALUES (4, 40), (5, 50), (6, 60)
s1 SELECT * FROM sys.dm_db_column_store_row_group_physical_stats
s2<
s2 SELECT * FROM sys.dm_db_column_store_row_group_physical_stats
-- The store of the Start is full at the Finish, and none is OPEN.
s1 INSERT INTO t VALUES (7, 70)
s2> ALTER INDEX ALL ON t REORGANIZE WITH (COMPRESS_ALL_ROW_GROUPS = ON)
s1 INSERT INTO t VALUES (8, 80), (9, 90)
s1 SELECT * FROM sys.dm_db_column_store_row_group_physical_stats
s2<
s2 SELECT * FROM sys.dm_db_column_store_row_group_physical_stats
