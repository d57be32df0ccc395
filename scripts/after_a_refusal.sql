-- What stands after each refusal: outside a transaction nothing is open; inside, the transaction with its levels, its
-- writes and its snapshot, but for 3960.
setup CREATE TABLE t (k int NOT NULL PRIMARY KEY, v int NULL)
s1 INSERT INTO t VALUES (1, 10), (2, 20)
s9 BEGIN TRAN
s9 UPDATE t SET v = 21 WHERE k = 2
-- Outside.
s2 INSERT INTO t VAL
s2 COMMIT
s2 UPDATE t SET v = 1 / (k - 1)
s2 ROLLBACK
s2 UPDATE t SET v = 0
s2 COMMIT
s2 INSERT INTO t VALUES (1, 0)
s2 ROLLBACK
s2> DELETE FROM t WHERE k = 1
s1 UPDATE t SET v = 11 WHERE k = 1
s2<
s2 COMMIT
s2 SELECT * FROM t
-- Inside: each refusal but 3960 leaves the write of key 3, two levels, and the snapshot.
s2 BEGIN TRAN
s2 BEGIN TRAN
s2 INSERT INTO t VALUES (3, 30)
s1 UPDATE t SET v = 12 WHERE k = 1
s2 INSERT INTO t VAL
s2 SELECT * FROM t
s2 INSERT INTO t VALUES (4, 2147483648)
s2 SELECT * FROM t
s2 DELETE FROM t WHERE k >= 2
s2 SELECT * FROM t
s2 INSERT INTO t VALUES (4, 40), (3, 31)
s2 SELECT * FROM t
s1 UPDATE t SET v = 0 WHERE k = 3
s1 INSERT INTO t VALUES (3, 0)
s2 COMMIT
s1 INSERT INTO t VALUES (3, 0)
s2 COMMIT
s2 COMMIT
s1 INSERT INTO t VALUES (3, 0)
s2 SELECT * FROM t
-- 3960 takes three levels and all writes away.
s2 BEGIN TRAN
s2 BEGIN TRAN
s2 UPDATE t SET v = 31 WHERE k = 3
s2 BEGIN TRAN
s1 UPDATE t SET v = 13 WHERE k = 1
s2 DELETE FROM t WHERE k = 1
s2 COMMIT
s2 ROLLBACK
s1 UPDATE t SET v = 32 WHERE k = 3
s2 UPDATE t SET v = 14 WHERE k = 1
s2 SELECT * FROM t
