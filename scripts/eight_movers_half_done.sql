-- Eight claims are out at once, a row of each source is deleted meanwhile, and the last claim is installed first.
setup CREATE TABLE t (k int NOT NULL PRIMARY KEY, v int NULL)
s1 INSERT INTO t VALUES (1, 1), (2, 1)
s1 INSERT INTO t VALUES (3, 2), (4, 2)
s1 INSERT INTO t VALUES (5, 3), (6, 3)
s1 INSERT INTO t VALUES (7, 4), (8, 4)
s1 INSERT INTO t VALUES (9, 5), (10, 5)
s1 INSERT INTO t VALUES (11, 6), (12, 6)
s1 INSERT INTO t VALUES (13, 7), (14, 7)
s1 INSERT INTO t VALUES (15, 8), (16, 8)
s2 BEGIN TRAN
s2 SELECT COUNT(*), SUM(v) FROM t
m1>
m2>
m3>
m4>
m5>
m6>
m7>
m8>
s1 DELETE FROM t WHERE k IN (1, 3, 5, 7, 9, 11, 13, 15)
s1 SELECT * FROM sys.dm_db_column_store_row_group_physical_stats
m8<
m7<
m6<
m5<
m4<
m3<
m2<
m1<
s1 SELECT * FROM sys.dm_db_column_store_row_group_physical_stats
s2 SELECT COUNT(*), SUM(v) FROM t
s1 SELECT COUNT(*), SUM(v) FROM t
