-- What movers do between its Start and its Finish: what they installed is left no more, what they hold is named with the one that holds
-- it at the end, and what they never claimed is compressed.
setup CREATE TABLE t (k int NOT NULL PRIMARY KEY, v int NULL)
s1 INSERT INTO t VALUES (1, 10), (2, 20)
s1 INSERT INTO t VALUES (3, 30), (4, 40)
s1 INSERT INTO t VALUES (5, 50), (6, 60)
s1 INSERT INTO t VALUES (7, 70), (8, 80)
m1>
s2> ALTER INDEX ALL ON t REORGANIZE
m1<
m3>
m2>
s2<
s2 SELECT * FROM sys.dm_db_column_store_row_group_physical_stats
-- A mover that claimed before the Start, and another one that took what was left after it.
s1 INSERT INTO t VALUES (9, 90), (10, 100)
m1>
s1 INSERT INTO t VALUES (11, 110), (12, 120)
s2> ALTER INDEX ALL ON t REORGANIZE
m1<
m1>
s2<
m1<
m2<
m3<
s2 ALTER INDEX ALL ON t REORGANIZE
s2 SELECT * FROM sys.dm_db_column_store_row_group_physical_stats
-- A clear in between takes the tombstones.
s2> ALTER INDEX ALL ON t REORGANIZE
m1
s2<
s2 SELECT * FROM sys.dm_db_column_store_row_group_physical_stats
s2 SELECT COUNT(*), SUM(v) FROM t
