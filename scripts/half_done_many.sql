-- Statements of many sessions half done at once: the first to end has the key, whichever began first.
setup CREATE TABLE t (k int NOT NULL PRIMARY KEY, v int NULL)
s1 INSERT INTO t VALUES (1, 10), (2, 20), (3, 30)
s1> UPDATE t SET v = 11 WHERE k = 1
s2> UPDATE t SET v = 12 WHERE k = 1
s3> DELETE FROM t WHERE k = 1
s4> INSERT INTO t VALUES (1, 14)
s5> SELECT * FROM t
s6> UPDATE t SET v = v + 6 WHERE k = 2
s7> INSERT INTO t VALUES (7, 70)
s8> INSERT INTO t VALUES (8, 80), (7, 71)
s9> UPDATE t SET v = 2147483647 + v
s10> SELECT COUNT(*), SUM(v) FROM t
s3<
s9<
s2<
s4<
s6<
s8<
s1<
s7<
s5<
s10<
s1 SELECT * FROM t
-- Two transactions and two statements beside them.
s2 BEGIN TRAN
s4 BEGIN TRAN
s2> UPDATE t SET v = 22 WHERE k = 2
s4> UPDATE t SET v = 24 WHERE k = 2
s6> UPDATE t SET v = 26 WHERE k = 2
s8> DELETE FROM t WHERE k = 3
s4<
s6<
s2<
s8<
s2> UPDATE t SET v = 33 WHERE k = 3
s4> COMMIT
s6> UPDATE t SET v = 26 WHERE k = 2
s4<
s2<
s6<
s2> SELECT * FROM t
s4> SELECT * FROM t
s2<
s4<
