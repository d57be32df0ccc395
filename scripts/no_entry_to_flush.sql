-- A turn flushes nothing where the buffer is empty, and nothing where its entries are of full stores, claimed groups or lent ones.
setup CREATE TABLE t (k int NOT NULL PRIMARY KEY, v int NULL)
s1 INSERT INTO t SELECT value, value FROM GENERATE_SERIES(1, 4)
m1
s1 INSERT INTO t VALUES (11, 1), (12, 2)
s1 INSERT INTO t VALUES (13, 3), (14, 4)
s1 DELETE FROM t WHERE k = 11
s1 SELECT * FROM sys.dm_db_column_store_row_group_physical_stats
m1>
m2
s1 DELETE FROM t WHERE k = 1
m2>
m3
s1 DELETE FROM t WHERE k = 2
m3
s1 SELECT * FROM sys.dm_db_column_store_row_group_physical_stats
m2<
s1 SELECT * FROM sys.dm_db_column_store_row_group_physical_stats
m1<
m3
s1 SELECT * FROM sys.dm_db_column_store_row_group_physical_stats
s1 SELECT * FROM t
