-- A store with one version less than a group stays open, and a turn finds nothing; the next version closes it. Ended ones count.
setup CREATE TABLE t (k int NOT NULL PRIMARY KEY, v int NULL)
s1 INSERT INTO t VALUES (1, 10), (2, 20)
m1
s1 SELECT * FROM sys.dm_db_column_store_row_group_physical_stats
s1 UPDATE t SET v = 11 WHERE k = 1
s1 SELECT * FROM sys.dm_db_column_store_row_group_physical_stats
m1
s1 SELECT * FROM sys.dm_db_column_store_row_group_physical_stats
s1 SELECT * FROM t
