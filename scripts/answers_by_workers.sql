-- An answer is the same for any number of workers: over packed groups of two rows, stores, and own writes.
setup CREATE TABLE t (k int NOT NULL PRIMARY KEY, v int NULL)
s1 INSERT INTO t VALUES (1, 10), (2, 20)
s1 INSERT INTO t VALUES (3, 30), (4, 40)
s1 INSERT INTO t VALUES (5, 50), (6, 60)
s1 SET STATISTICS IO ON
s1 SELECT * FROM t WHERE v >= 30
s1 SET STATISTICS IO OFF
-- a sum with parts out of the range of int, and one that is itself
s1 INSERT INTO t VALUES (7, 2147483647), (8, 1), (9, -1)
s1 SELECT SUM(v) FROM t WHERE k >= 7
s1 SELECT SUM(v) FROM t WHERE v = 1 OR v > 60
s1 INSERT INTO t VALUES (10, NULL), (11, -3)
s1 SELECT AVG(v) FROM t WHERE v <= 1
s1 SELECT k FROM t WHERE v <> 10 AND v < 60
s1 BEGIN TRAN
s1 UPDATE t SET v = 20 WHERE k IN (3, 9)
s1 DELETE FROM t WHERE k = 4
s1 INSERT INTO t VALUES (12, 20)
s1 SELECT v, COUNT(*), SUM(k) FROM t GROUP BY v ORDER BY v
s1 SELECT k FROM t WHERE v = 20 ORDER BY k DESC
s1 ROLLBACK
s1 SELECT COUNT(*), COUNT(v), MIN(v), MAX(v) FROM t
