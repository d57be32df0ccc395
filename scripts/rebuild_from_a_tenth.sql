-- One removable row in ten is enough for a rebuild, and one in eleven is not: that end is settled.
setup CREATE TABLE t (k int NOT NULL PRIMARY KEY, v int NULL)
s1 INSERT INTO t SELECT value, value FROM GENERATE_SERIES(1, 11)
s1 INSERT INTO t SELECT value, value FROM GENERATE_SERIES(12, 21)
s1 DELETE FROM t WHERE k IN (1, 12)
m1
m1
m1
m1
m1
s1 SELECT * FROM sys.dm_db_column_store_row_group_physical_stats
