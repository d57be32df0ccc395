-- A snapshot is taken at the first statement of the table, not at BEGIN, and not anew by a later statement.
setup CREATE TABLE t (k int NOT NULL PRIMARY KEY, v int NULL)
s1 INSERT INTO t VALUES (1, 10)
s2 BEGIN TRAN
s3 BEGIN TRAN
s4 BEGIN TRAN
s5 BEGIN TRAN
s6 BEGIN TRAN
s1 INSERT INTO t VALUES (2, 20)
-- Statements that take none.
s2 SET TRANSACTION ISOLATION LEVEL SNAPSHOT
s2 SET LOCK_TIMEOUT 0
s2 BEGIN TRAN
s2 SELECT x FROM t
s2 INSERT INTO t VALUES (1)
s2 COMMIT
s1 INSERT INTO t VALUES (3, 30)
s2 SELECT * FROM t
s1 INSERT INTO t VALUES (4, 40)
s2 SELECT * FROM t
s2 BEGIN TRAN
s2 SELECT * FROM t WHERE k > 2
s2 COMMIT
s2 SELECT COUNT(*) FROM t
s2 COMMIT
s2 SELECT COUNT(*) FROM t
-- A write takes it, and so does a statement that is refused at its end.
s3 UPDATE t SET v = 0 WHERE k = 99
s4 INSERT INTO t VALUES (5, 1 / 0)
s5 INSERT INTO t VALUES (1, 0)
s6 SELECT k FROM t WHERE k = 4
s1 INSERT INTO t VALUES (5, 50)
s1 UPDATE t SET v = 11 WHERE k = 1
s1 DELETE FROM t WHERE k = 2
s3 SELECT COUNT(*), SUM(v) FROM t
s4 SELECT COUNT(*), SUM(v) FROM t
s5 SELECT COUNT(*), SUM(v) FROM t
s6 SELECT * FROM t
s6 INSERT INTO t VALUES (5, 51)
s6 SELECT * FROM t
-- A transaction whose first statement meets a held key keeps its snapshot too.
s7 BEGIN TRAN
s7 DELETE FROM t WHERE k = 4
s8 BEGIN TRAN
s8 UPDATE t SET v = 0 WHERE k = 4
s7 COMMIT
s8 SELECT k FROM t
s8 UPDATE t SET v = 0 WHERE k = 4
s8 SELECT k FROM t
