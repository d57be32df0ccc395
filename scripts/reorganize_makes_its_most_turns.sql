-- Of three turns for each OPEN, CLOSED and COMPRESSED group of its Start, and one, a REORGANIZE makes no more. Tombstones do not count, and
-- a close is no turn: with one store at the Start four turns are made.
setup CREATE TABLE t (k int NOT NULL PRIMARY KEY, v int NULL)
s1 INSERT INTO t VALUES (1, 10), (2, 20)
s1 ALTER INDEX ALL ON t REORGANIZE
s1 DELETE FROM t
s1 ALTER INDEX ALL ON t REORGANIZE
s1 ALTER INDEX ALL ON t REORGANIZE
s1 ALTER INDEX ALL ON t REORGANIZE
s1 SELECT * FROM sys.dm_db_column_store_row_group_physical_stats
s1 INSERT INTO t VALUES (1, 10)
s2> ALTER INDEX ALL ON t REORGANIZE WITH (COMPRESS_ALL_ROW_GROUPS = ON)
s1 INSERT INTO t VALUES (2, 20), (3, 30), (4, 40), (5, 50), (6, 60)
s1 INSERT INTO t VALUES (7, 70), (8, 80), (9, 90), (10, 100), (11, 110)
s1 SELECT * FROM sys.dm_db_column_store_row_group_physical_stats
s2<
s2 SELECT * FROM sys.dm_db_column_store_row_group_physical_stats
-- The next one has all of them at its Start, and finishes.
s2 ALTER INDEX ALL ON t REORGANIZE
s2 SELECT * FROM sys.dm_db_column_store_row_group_physical_stats
