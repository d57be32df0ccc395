-- A claim of each kind is out: a clear takes the tombstone that is there, and another turn finds nothing. The last claim is
-- installed first.
setup CREATE TABLE t (k int NOT NULL PRIMARY KEY, v int NULL)
s1 INSERT INTO t SELECT value, value FROM GENERATE_SERIES(1, 12)
s1 INSERT INTO t SELECT value, value FROM GENERATE_SERIES(21, 32)
s1 INSERT INTO t SELECT value, value FROM GENERATE_SERIES(41, 45)
s1 INSERT INTO t SELECT value, value FROM GENERATE_SERIES(51, 55)
s1 INSERT INTO t VALUES (101, 0), (102, 0), (103, 0), (104, 0)
s1 INSERT INTO t VALUES (105, 0), (106, 0), (107, 0), (108, 0)
s1 INSERT INTO t VALUES (109, 0), (110, 0), (111, 0), (112, 0)
m1
s1 DELETE FROM t WHERE k <= 2
m1
s1 INSERT INTO t VALUES (121, 0), (122, 0), (123, 0), (124, 0)
s1 INSERT INTO t VALUES (125, 0), (126, 0), (127, 0), (128, 0)
s1 INSERT INTO t VALUES (129, 0), (130, 0), (131, 0), (132, 0)
s1 DELETE FROM t WHERE k = 21
m1>
m2>
m3>
m4>
m5
m6
s1 SELECT * FROM sys.dm_db_column_store_row_group_physical_stats
m4<
m3<
m2<
m1<
s1 SELECT * FROM sys.dm_db_column_store_row_group_physical_stats
m5
m6
m7
s1 SELECT * FROM sys.dm_db_column_store_row_group_physical_stats
s1 SELECT COUNT(*), SUM(v) FROM t
