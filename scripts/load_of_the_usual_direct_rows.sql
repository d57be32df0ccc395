-- As many rows as a commit packs at once.
setup CREATE TABLE t (k int NOT NULL PRIMARY KEY, v int NULL)
s1 INSERT INTO t SELECT value, value FROM GENERATE_SERIES(1, 102400)
s1 SELECT * FROM sys.dm_db_column_store_row_group_physical_stats
