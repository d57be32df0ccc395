-- Three rows of a commit, fewer than it packs at once.
setup CREATE TABLE t (k int NOT NULL PRIMARY KEY, v int NULL)
s1 INSERT INTO t VALUES (1, 10), (2, 20), (3, 30)
s1 SELECT * FROM sys.dm_db_column_store_row_group_physical_stats
