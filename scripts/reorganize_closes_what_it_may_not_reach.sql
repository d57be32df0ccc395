-- Nothing was there at the Start, so one turn is made: it takes the lowest CLOSED store, and the one that was closed by ON stays CLOSED.
setup CREATE TABLE t (k int NOT NULL PRIMARY KEY, v int NULL)
s2> ALTER INDEX ALL ON t REORGANIZE WITH (COMPRESS_ALL_ROW_GROUPS = ON)
s1 INSERT INTO t VALUES (1, 10), (2, 20)
s1 INSERT INTO t VALUES (3, 30)
s2<
s2 SELECT * FROM sys.dm_db_column_store_row_group_physical_stats
s1 INSERT INTO t VALUES (4, 40)
s2 SELECT * FROM sys.dm_db_column_store_row_group_physical_stats
s2 ALTER INDEX ALL ON t REORGANIZE WITH (COMPRESS_ALL_ROW_GROUPS = ON)
s2 SELECT * FROM sys.dm_db_column_store_row_group_physical_stats
s2 SELECT * FROM t
