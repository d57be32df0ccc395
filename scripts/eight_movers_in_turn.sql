-- Eight movers, each with a whole turn.
setup CREATE TABLE t (k int NOT NULL PRIMARY KEY, v int NULL)
s1 INSERT INTO t VALUES (1, 1), (2, 1)
s1 INSERT INTO t VALUES (3, 2), (4, 2)
s1 INSERT INTO t VALUES (5, 3), (6, 3)
s1 INSERT INTO t VALUES (7, 4), (8, 4)
s1 INSERT INTO t VALUES (9, 5), (10, 5)
s1 INSERT INTO t VALUES (11, 6), (12, 6)
m1
m2
m3
m4
m5
m6
m7
m8
s1 SELECT * FROM sys.dm_db_column_store_row_group_physical_stats
