setup CREATE TABLE t (k int NOT NULL PRIMARY KEY, v int NULL)
s1 INSERT INTO t VALUES (1, 10), (2, 20)
-- two transactions write one key: the second is refused, and after the first one's commit it is lost
s1 BEGIN TRAN
s2 BEGIN TRAN
s2 SELECT * FROM t
s1 UPDATE t SET v = 11 WHERE k = 1
s2 UPDATE t SET v = 12 WHERE k = 1
s1 COMMIT
s2 UPDATE t SET v = 12 WHERE k = 1
s2 COMMIT
-- a snapshot stays as it was taken, and its transaction's own writes lie over it
s2 BEGIN TRAN
s2 SELECT COUNT(*) FROM t
s1 INSERT INTO t VALUES (3, 30)
s2 UPDATE t SET v = v + 1 WHERE k = 2
s2 SELECT * FROM t
s2 COMMIT
s2 SELECT * FROM t
-- a statement half done reads what was there at its start, and is too late for a key that changed since
s1> UPDATE t SET v = v + 1 WHERE k = 3
s2 UPDATE t SET v = 40 WHERE k = 3
s1<
s1 SELECT * FROM t
s1 ROLLBACK
