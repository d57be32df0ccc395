-- A store that fills up between the Start and the Finish of a REORGANIZE is compressed by it, but is none of those that it may name as
-- left, even where a mover has claimed it. How many turns it makes at most is told by the groups at its Start: here there is one, and
-- four turns are enough.
setup CREATE TABLE t (k int NOT NULL PRIMARY KEY, v int NULL)
s1 INSERT INTO t VALUES (1, 10), (2, 20)
s2> ALTER INDEX ALL ON t REORGANIZE
s1 INSERT INTO t VALUES (3, 30), (4, 40)
s1 INSERT INTO t VALUES (5, 50)
s2<
s2 SELECT * FROM sys.dm_db_column_store_row_group_physical_stats
-- Mover 1 has claimed the store that was CLOSED at the Start, and mover 2 the one that was OPEN there: the first one alone is named.
s1 INSERT INTO t VALUES (6, 60)
s1 INSERT INTO t VALUES (7, 70)
s2> ALTER INDEX ALL ON t REORGANIZE
s1 INSERT INTO t VALUES (8, 80)
m1>
m2>
s2<
s2 SELECT * FROM sys.dm_db_column_store_row_group_physical_stats
m2<
m1<
s2 ALTER INDEX ALL ON t REORGANIZE
s2 SELECT * FROM sys.dm_db_column_store_row_group_physical_stats
s2 SELECT * FROM t
