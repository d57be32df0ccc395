-- Statements half done inside a transaction, and BEGIN, COMMIT and ROLLBACK half done, which act at their end.
setup CREATE TABLE t (k int NOT NULL PRIMARY KEY, v int NULL)
s1 INSERT INTO t VALUES (1, 10), (2, 20)
s2 BEGIN TRAN
-- The snapshot is of the beginning of the first statement.
s2> SELECT * FROM t
s1 UPDATE t SET v = 11 WHERE k = 1
s2<
s2> UPDATE t SET v = v + 1 WHERE k = 2
s1 INSERT INTO t VALUES (3, 30)
s2<
s2> SELECT * FROM t
s1 SELECT * FROM t
s2<
s2> INSERT INTO t VALUES (4, 40)
s1 INSERT INTO t VALUES (4, 41)
s2<
s2 COMMIT
-- BEGIN takes no snapshot at its end either; COMMIT shows the writes at its end.
s2> BEGIN TRAN
s1 DELETE FROM t WHERE k = 4
s2<
s1 UPDATE t SET v = 12 WHERE k = 1
s2 UPDATE t SET v = v + 1
s2> COMMIT
s1 SELECT * FROM t
s1 UPDATE t SET v = 0 WHERE k = 3
s3> SELECT * FROM t
s4> UPDATE t SET v = 0 WHERE k = 3
s2<
s1 SELECT * FROM t
s3<
s4<
s2 COMMIT
-- ROLLBACK frees the keys at its end.
s2 BEGIN TRAN
s2 DELETE FROM t WHERE k = 1
s2> ROLLBACK
s1 DELETE FROM t WHERE k = 1
s3> DELETE FROM t WHERE k = 1
s2<
s3<
-- Replies that are refused at the end: no level, a text that is not read, the isolation level.
s2> COMMIT
s3> ROLLBACK
s4> INSERT INTO t VAL
s5> SET TRANSACTION ISOLATION LEVEL SNAPSHOT
s6> BEGIN TRAN
s6<
s5<
s4<
s3<
s2<
-- A refused text that is half done draws no transaction and no snapshot.
s6> SELECT x FROM t
s1 INSERT INTO t VALUES (1, 15)
s6<
s6 UPDATE t SET v = 16 WHERE k = 1
s1 DELETE FROM t WHERE k = 1
s6> COMMIT
s6<
s1 SELECT * FROM t
