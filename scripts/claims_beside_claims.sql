-- Two movers compress at once; a third finds nothing, since what could be done is claimed, and a clear leaves claims alone.
setup CREATE TABLE t (k int NOT NULL PRIMARY KEY, v int NULL)
s1 INSERT INTO t VALUES (1, 10), (2, 20), (3, 30), (4, 40)
m1>
m2>
m3>
m3<
m2<
m3
s1 SELECT * FROM sys.dm_db_column_store_row_group_physical_stats
m1<
m1
s1 SELECT * FROM sys.dm_db_column_store_row_group_physical_stats
