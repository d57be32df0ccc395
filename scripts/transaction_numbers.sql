-- Transaction numbers are drawn by an outermost BEGIN and by each statement of the table outside a transaction, and by
-- nothing else. The number of session 9's transaction shows how many were drawn before.
setup CREATE TABLE t (k int NOT NULL PRIMARY KEY, v int NULL)
s1 INSERT INTO t VALUES (1, 10)
s9 BEGIN TRAN
s9 UPDATE t SET v = 0 WHERE k = 1
s8 DELETE FROM t
s9 ROLLBACK
-- Texts that are refused, SET, and COMMIT and ROLLBACK of nothing draw none.
s1 INSERT INTO t VAL
s1 SELECT x FROM t
s1 SELECT * FROM u
s1 INSERT INTO t (k, v) VALUES (1)
s1 UPDATE t SET k = 1
s1 DELETE FROM t WHERE x = 1
s1 BEGIN WORK
s1 SET LOCK_TIMEOUT 0
s1 SET LOCK_TIMEOUT 1
s1 SET TRANSACTION ISOLATION LEVEL SNAPSHOT
s1 COMMIT
s1 ROLLBACK
s9 BEGIN TRAN
s9 UPDATE t SET v = 0 WHERE k = 1
s8 DELETE FROM t
s9 ROLLBACK
-- A SELECT, a write of no row, and writes that are refused draw one each.
s1 SELECT * FROM t
s1 SELECT COUNT(*) FROM t WHERE k = 99
s1 UPDATE t SET v = 1 WHERE k = 99
s1 DELETE FROM t WHERE k = 99
s1 INSERT INTO t VALUES (NULL, 1)
s1 INSERT INTO t VALUES (1, 1)
s9 BEGIN TRAN
s9 UPDATE t SET v = 0 WHERE k = 1
s8 DELETE FROM t
s9 ROLLBACK
-- A transaction has one, whatever stands in it; one that wrote nothing had one too.
s1 BEGIN TRAN
s1 BEGIN TRAN
s1 SELECT * FROM t
s1 UPDATE t SET v = 11 WHERE k = 1
s1 INSERT INTO t VALUES (1, 1)
s1 COMMIT
s1 COMMIT
s2 BEGIN TRAN
s2 COMMIT
s3 BEGIN TRAN
s3 ROLLBACK
s9 BEGIN TRAN
s9 UPDATE t SET v = 0 WHERE k = 1
s8 DELETE FROM t
s9 ROLLBACK
-- BEGIN draws at its end, a statement of the table at its beginning; the transaction's number is kept with its changes.
s1> BEGIN TRAN
s2> UPDATE t SET v = 12 WHERE k = 1
s3> BEGIN TRAN
s4> INSERT INTO t VALUES (2, 20)
s3<
s1<
s3 INSERT INTO t VALUES (3, 30)
s1 INSERT INTO t VALUES (4, 40)
s5 INSERT INTO t VALUES (4, 0), (3, 0)
s5 INSERT INTO t VALUES (4, 0)
s6 BEGIN TRAN
s6 SELECT * FROM t
s4<
s2<
s1 COMMIT
s3 COMMIT
s7 BEGIN TRAN
s7 SELECT * FROM t
s6 INSERT INTO t VALUES (4, 0)
s6 BEGIN TRAN
s6 DELETE FROM t
s1 UPDATE t SET v = v + 1
s7 DELETE FROM t
