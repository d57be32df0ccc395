-- Two REORGANIZE are half done at once, and each is finished in one line: the first one does the work, and the second one finds none. A
-- group that a mover holds is left by both.
setup CREATE TABLE t (k int NOT NULL PRIMARY KEY, v int NULL)
s1 INSERT INTO t VALUES (1, 10), (2, 20)
s1 INSERT INTO t VALUES (3, 30), (4, 40)
s1 INSERT INTO t VALUES (5, 50)
m1>
s1> ALTER INDEX ALL ON t REORGANIZE
s2> ALTER INDEX ALL ON t REORGANIZE WITH (COMPRESS_ALL_ROW_GROUPS = ON)
s1<
s3 SELECT * FROM sys.dm_db_column_store_row_group_physical_stats
s2<
s3 SELECT * FROM sys.dm_db_column_store_row_group_physical_stats
m1<
-- The second Start has fewer groups than the first, and the first one is finished last.
s1> ALTER INDEX ALL ON t REORGANIZE WITH (COMPRESS_ALL_ROW_GROUPS = ON)
s2 INSERT INTO t VALUES (6, 60), (7, 70), (8, 80)
s2> ALTER INDEX ALL ON t REORGANIZE
s3 DELETE FROM t WHERE k IN (1, 3)
s2<
s3 SELECT * FROM sys.dm_db_column_store_row_group_physical_stats
s1<
s3 SELECT * FROM sys.dm_db_column_store_row_group_physical_stats
s3 SELECT * FROM t
