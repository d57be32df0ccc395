-- One commit fills the open store, opens and fills two more, and opens a fourth; the next one fills that exactly, and none is open.
setup CREATE TABLE t (k int NOT NULL PRIMARY KEY, v int NULL)
s1 INSERT INTO t VALUES (1, 1)
s1 INSERT INTO t SELECT value, value FROM GENERATE_SERIES(2, 11)
s1 SELECT * FROM sys.dm_db_column_store_row_group_physical_stats
s1 INSERT INTO t VALUES (12, 12)
s1 SELECT * FROM sys.dm_db_column_store_row_group_physical_stats
s1 INSERT INTO t VALUES (13, 13)
m1
m2
m3
s1 SELECT * FROM sys.dm_db_column_store_row_group_physical_stats
s1 SELECT COUNT(*), SUM(v) FROM t
