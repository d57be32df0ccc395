-- A rebuild waits for its install while another mover compresses and clears, and while the last row of its group is deleted.
setup CREATE TABLE t (k int NOT NULL PRIMARY KEY, v int NULL)
s1 INSERT INTO t VALUES (1, 10), (2, 20)
m1
s1 DELETE FROM t WHERE k = 1
m1
m1>
s1 INSERT INTO t VALUES (3, 30), (4, 40)
m2
s1 DELETE FROM t WHERE k = 2
m2
s1 SELECT * FROM sys.dm_db_column_store_row_group_physical_stats
m1<
s1 SELECT * FROM t
s1 SELECT * FROM sys.dm_db_column_store_row_group_physical_stats
