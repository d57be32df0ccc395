-- Both versions of the store have ended when it is packed: no group comes of it, and its id is never drawn again.
setup CREATE TABLE t (k int NOT NULL PRIMARY KEY, v int NULL)
s1 INSERT INTO t VALUES (1, 10)
s1 UPDATE t SET v = 11
s1 DELETE t
m1
s1 SELECT * FROM sys.dm_db_column_store_row_group_physical_stats
s1 INSERT INTO t VALUES (1, 12)
s1 SELECT * FROM sys.dm_db_column_store_row_group_physical_stats
