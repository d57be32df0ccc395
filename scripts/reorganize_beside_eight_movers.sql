-- Eight movers have claimed a store each: all are left, by the numbers of the groups, whatever the movers' numbers. What nobody has
-- claimed is compressed. Those that were installed meanwhile are left no more.
setup CREATE TABLE t (k int NOT NULL PRIMARY KEY, v int NULL)
s1 INSERT INTO t VALUES (1, 1), (2, 1)
s1 INSERT INTO t VALUES (3, 2), (4, 2)
s1 INSERT INTO t VALUES (5, 3), (6, 3)
s1 INSERT INTO t VALUES (7, 4), (8, 4)
s1 INSERT INTO t VALUES (9, 5), (10, 5)
s1 INSERT INTO t VALUES (11, 6), (12, 6)
s1 INSERT INTO t VALUES (13, 7), (14, 7)
s1 INSERT INTO t VALUES (15, 8), (16, 8)
s1 INSERT INTO t VALUES (17, 9), (18, 9)
m8>
m3>
m5>
m1>
m7>
m2>
m6>
m4>
s64 ALTER INDEX ALL ON t REORGANIZE
s64 SELECT * FROM sys.dm_db_column_store_row_group_physical_stats
m5<
m4<
m8<
s64 ALTER INDEX ALL ON t REORGANIZE
m1<
m2<
m3<
m6<
m7<
s64 ALTER INDEX ALL ON t REORGANIZE
s64 SELECT * FROM sys.dm_db_column_store_row_group_physical_stats
s64 SELECT COUNT(*), SUM(v) FROM t
