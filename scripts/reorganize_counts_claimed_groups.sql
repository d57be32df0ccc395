-- A group that a mover has claimed counts for the most turns as any other, and the place of the one that the mover makes does not: with one
-- CLOSED store at the Start four turns are made, though two more stores are left.
setup CREATE TABLE t (k int NOT NULL PRIMARY KEY, v int NULL)
s1 INSERT INTO t VALUES (1, 10), (2, 20)
m1>
s2> ALTER INDEX ALL ON t REORGANIZE
s1 INSERT INTO t VALUES (3, 30), (4, 40), (5, 50), (6, 60), (7, 70), (8, 80)
s1 INSERT INTO t VALUES (9, 90), (10, 100), (11, 110), (12, 120), (13, 130), (14, 140)
s1 SELECT * FROM sys.dm_db_column_store_row_group_physical_stats
s2<
s2 SELECT * FROM sys.dm_db_column_store_row_group_physical_stats
m1<
s2 ALTER INDEX ALL ON t REORGANIZE
s2 SELECT * FROM sys.dm_db_column_store_row_group_physical_stats
