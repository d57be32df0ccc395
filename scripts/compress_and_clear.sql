-- A store that is full is closed by its commit; a turn packs it, and the next one drops what is left of it.
setup CREATE TABLE t (k int NOT NULL PRIMARY KEY, v int NULL)
s1 INSERT INTO t VALUES (1, 10)
s1 INSERT INTO t VALUES (2, 20)
s1 INSERT INTO t VALUES (3, 30)
s1 SELECT * FROM sys.dm_db_column_store_row_group_physical_stats
m1
s1 SELECT * FROM sys.dm_db_column_store_row_group_physical_stats
m1
s1 SELECT * FROM sys.dm_db_column_store_row_group_physical_stats
