-- The first group with a partner is merged, here with the last one, which fills it to the last place; then the two between.
setup CREATE TABLE t (k int NOT NULL PRIMARY KEY, v int NULL)
s1 INSERT INTO t VALUES (1, 10), (2, 20), (3, 30)
s1 INSERT INTO t VALUES (4, 40), (5, 50)
s1 INSERT INTO t VALUES (6, 60), (7, 70)
s1 INSERT INTO t VALUES (8, 80)
m1
m1
m1
m1
s1 SELECT * FROM sys.dm_db_column_store_row_group_physical_stats
s1 SELECT COUNT(*), SUM(v) FROM t
