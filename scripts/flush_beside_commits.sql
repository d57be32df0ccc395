-- A flush installs the entries that it was lent; those that came later stay in the buffer for the next one.
setup CREATE TABLE t (k int NOT NULL PRIMARY KEY, v int NULL)
s1 INSERT INTO t SELECT value, value FROM GENERATE_SERIES(1, 3)
s1 INSERT INTO t SELECT value, value FROM GENERATE_SERIES(4, 6)
s2 BEGIN TRAN
s2 SELECT COUNT(*) FROM t
s1 DELETE FROM t WHERE k = 1
m1>
s1 DELETE FROM t WHERE k IN (2, 4)
m2>
s1 INSERT INTO t VALUES (1, 100)
s1 SELECT * FROM sys.dm_db_column_store_row_group_physical_stats
m1<
s1 SELECT * FROM sys.dm_db_column_store_row_group_physical_stats
m2<
s1 SELECT * FROM sys.dm_db_column_store_row_group_physical_stats
s2 SELECT * FROM t
s1 SELECT * FROM t
m1
s1 SELECT * FROM sys.dm_db_column_store_row_group_physical_stats
