-- Without a group at its Start a REORGANIZE makes one turn, whatever fills up until its Finish. The others stay CLOSED, and are not named.
setup CREATE TABLE t (k int NOT NULL PRIMARY KEY, v int NULL)
s2> ALTER INDEX ALL ON t REORGANIZE
s1 INSERT INTO t VALUES (1, 10), (2, 20)
s1 INSERT INTO t VALUES (3, 30), (4, 40)
s1 INSERT INTO t VALUES (5, 50), (6, 60)
s2<
s2 SELECT * FROM sys.dm_db_column_store_row_group_physical_stats
s2 ALTER INDEX ALL ON t REORGANIZE
s2 SELECT * FROM sys.dm_db_column_store_row_group_physical_stats
