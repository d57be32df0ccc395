-- Counts are those of the COMPRESSED groups at the Start of a query, whatever movers and commits do before its Finish.
setup CREATE TABLE t (k int NOT NULL PRIMARY KEY, v int NULL)
s1 SET STATISTICS IO ON
s2 SET STATISTICS IO ON
s1 INSERT INTO t VALUES (1, 10)
s1 INSERT INTO t VALUES (2, 20)
s1 INSERT INTO t VALUES (3, 30)
-- CLOSED and OPEN stores are no segments.
s1 SELECT COUNT(*) FROM t
-- Half done across a compress.
s2> SELECT COUNT(*) FROM t WHERE v = 10
m1
s1 SELECT COUNT(*) FROM t WHERE v = 10
s2<
-- Ended versions count, by the bitmap and by the buffer.
s1 DELETE FROM t WHERE k = 1
s1 SELECT COUNT(*) FROM t WHERE v = 10
m1
s1 SELECT COUNT(*) FROM t WHERE v = 10
-- Half done across a rebuild, which leaves the ended version out; the old group is a tombstone, and no segment.
s2> SELECT COUNT(*) FROM t WHERE v = 10
m1>
s1 SELECT COUNT(*) FROM t WHERE v = 10
m1<
s2<
s1 SELECT COUNT(*) FROM t WHERE v = 10
s2 SELECT COUNT(*) FROM t WHERE v = 10
s1 SELECT * FROM sys.dm_db_column_store_row_group_physical_stats
-- A direct load and a transaction with an older snapshot: the groups are those of the Start.
s2 BEGIN TRAN
s2 SELECT COUNT(*) FROM t
s1 INSERT INTO t VALUES (11, 110), (12, 120), (13, 130), (14, 140)
s2 SELECT COUNT(*) FROM t
s2 SELECT COUNT(*) FROM t WHERE k > 11
s2 COMMIT
s2> SELECT COUNT(*) FROM t WHERE k > 10
s1 INSERT INTO t VALUES (21, 210), (22, 220)
s1 UPDATE t SET v = 0 WHERE k = 13
s2<
s2 SELECT COUNT(*) FROM t WHERE v = 0
m1
m2
s2 SELECT COUNT(*) FROM t WHERE v = 0
s1 SELECT * FROM sys.dm_db_column_store_row_group_physical_stats
