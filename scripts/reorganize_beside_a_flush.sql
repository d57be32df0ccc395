-- Entries whose groups others have claimed are left to them; those of free groups are flushed. Groups that are packed already are never
-- named as left, whoever holds them.
setup CREATE TABLE t (k int NOT NULL PRIMARY KEY, v int NULL)
s1 INSERT INTO t VALUES (1, 10), (2, 20), (3, 30), (4, 40)
s1 INSERT INTO t VALUES (5, 50), (6, 60), (7, 70), (8, 80)
s1 DELETE FROM t WHERE k = 1
m1>
s1 DELETE FROM t WHERE k IN (2, 5)
s1 SELECT * FROM sys.dm_db_column_store_row_group_physical_stats
s1 ALTER INDEX ALL ON t REORGANIZE
s1 SELECT * FROM sys.dm_db_column_store_row_group_physical_stats
m1<
s1 SELECT * FROM sys.dm_db_column_store_row_group_physical_stats
-- A rebuild and a merge that movers hold.
m1>
s1 INSERT INTO t VALUES (11, 110), (12, 120)
s1 INSERT INTO t VALUES (13, 130), (14, 140)
m2>
s1 DELETE FROM t WHERE k IN (3, 6, 11)
s1 ALTER INDEX ALL ON t REORGANIZE WITH (COMPRESS_ALL_ROW_GROUPS = ON)
s1 SELECT * FROM sys.dm_db_column_store_row_group_physical_stats
m2<
m1<
s1 SELECT * FROM sys.dm_db_column_store_row_group_physical_stats
s1 ALTER INDEX ALL ON t REORGANIZE
s1 SELECT * FROM sys.dm_db_column_store_row_group_physical_stats
s1 SELECT * FROM t
