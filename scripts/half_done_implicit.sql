-- Statements half done over another session's commit, outside a transaction: they read what was there at their
-- beginning.
setup CREATE TABLE t (k int NOT NULL PRIMARY KEY, v int NULL)
s1 INSERT INTO t VALUES (1, 10)
s1> UPDATE t SET v = v + 1 WHERE k = 1
s2 UPDATE t SET v = 20 WHERE k = 1
s1<
s1 SELECT * FROM t
-- A SELECT is answered from its snapshot.
s1> SELECT * FROM t
s2 INSERT INTO t VALUES (2, 30)
s2 DELETE FROM t WHERE k = 1
s3> SELECT * FROM t
s2 UPDATE t SET v = 31
s1<
s3<
s1 SELECT * FROM t
-- An UPDATE and a DELETE of the rows that were there.
s1> UPDATE t SET v = v + 1 WHERE v > 0
s2 INSERT INTO t VALUES (3, 40)
s1<
s1> DELETE FROM t WHERE k >= 3
s2 INSERT INTO t VALUES (4, 50)
s1<
s1> DELETE FROM t
s2 UPDATE t SET v = 51 WHERE k = 4
s1<
-- An INSERT: a key that came meanwhile is a newer change, not one that is there.
s1> INSERT INTO t VALUES (5, 60)
s2 INSERT INTO t VALUES (5, 61)
s1<
s1> INSERT INTO t VALUES (5, 62)
s2 DELETE FROM t WHERE k = 5
s1<
s1> INSERT INTO t VALUES (5, 63)
s2 INSERT INTO t VALUES (6, 70)
s1<
-- A key that is held at the end, whatever it was at the beginning.
s1> UPDATE t SET v = 0 WHERE k = 2
s2 BEGIN TRAN
s2 UPDATE t SET v = 33 WHERE k = 2
s1<
s1> UPDATE t SET v = v + 1 WHERE k = 2
s2 ROLLBACK
s1<
s2 BEGIN TRAN
s2 UPDATE t SET v = 35 WHERE k = 2
s1> UPDATE t SET v = 0 WHERE k = 2
s2 COMMIT
s1<
s1 SELECT * FROM t
-- A value that is refused, computed from the row as it was.
s1> UPDATE t SET v = 1 / (v - 35) WHERE k = 2
s2 UPDATE t SET v = 36 WHERE k = 2
s1<
s1> SELECT SUM(v) FROM t
s2 UPDATE t SET v = 2147483647 WHERE k = 2
s3 SELECT SUM(v) FROM t
s1<
