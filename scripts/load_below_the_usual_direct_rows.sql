-- One row fewer than a commit packs at once goes into the store.
setup CREATE TABLE t (k int NOT NULL PRIMARY KEY, v int NULL)
s1 INSERT INTO t SELECT value, value FROM GENERATE_SERIES(1, 102399)
s1 SELECT * FROM sys.dm_db_column_store_row_group_physical_stats
