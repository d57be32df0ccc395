-- A turn that settles or clears is done by its first half, and one that finds nothing has no event: the second half adds none.
setup CREATE TABLE t (k int NOT NULL PRIMARY KEY, v int NULL)
m1>
m1<
s1 INSERT INTO t SELECT value, value FROM GENERATE_SERIES(1, 12)
s1 DELETE FROM t WHERE k = 1
m1>
m1<
m1>
m2>
s1 DELETE FROM t WHERE k = 2
m1<
m2<
m3>
m3<
s1 SELECT * FROM sys.dm_db_column_store_row_group_physical_stats
m4>
m4<
m4>
s1 SELECT * FROM sys.dm_db_column_store_row_group_physical_stats
m4<
m4>
m4<
