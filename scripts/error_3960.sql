-- 3960 for each kind of write, against a newer change of each kind; it takes the whole transaction away.
setup CREATE TABLE t (k int NOT NULL PRIMARY KEY, v int NULL)
s1 INSERT INTO t VALUES (1, 10), (2, 20), (3, 30)
-- A newer UPDATE.
s2 BEGIN TRAN
s2 UPDATE t SET v = 31 WHERE k = 3
s3 BEGIN TRAN
s3 SELECT COUNT(*) FROM t
s4 BEGIN TRAN
s4 SELECT SUM(v) FROM t
s1 UPDATE t SET v = 11 WHERE k = 1
s2 UPDATE t SET v = 12 WHERE k = 1
-- Nothing of it is left: its own key is free, its level is 0, and its session reads what was committed.
s1 UPDATE t SET v = 32 WHERE k = 3
s2 COMMIT
s2 SELECT * FROM t
s2 ROLLBACK
s3 DELETE FROM t WHERE k = 1
s3 ROLLBACK
s4 INSERT INTO t VALUES (1, 13)
s4 COMMIT
-- A newer DELETE of a key that is in the snapshot, against an INSERT of it too.
s2 BEGIN TRAN
s2 SELECT * FROM t
s3 BEGIN TRAN
s3 SELECT * FROM t WHERE k = 2
s4 BEGIN TRAN
s4 SELECT * FROM t WHERE k = 9
s1 DELETE FROM t WHERE k = 2
s2 UPDATE t SET v = v + 1
s3 DELETE t
s4 INSERT INTO t VALUES (2, 21)
s4 SELECT * FROM t
-- A newer INSERT of a key that is not in the snapshot.
s2 BEGIN TRAN
s2 SELECT * FROM t WHERE k > 3
s3 BEGIN TRAN
s3 SELECT * FROM t WHERE k > 3
s1 INSERT INTO t VALUES (4, 40)
s2 UPDATE t SET v = 0 WHERE k = 4
s2 DELETE FROM t WHERE k = 4
s2 INSERT INTO t VALUES (5, 50), (4, 41)
s2 COMMIT
-- A newer INSERT and a newer DELETE: the newest change is to nothing.
s1 DELETE FROM t WHERE k = 4
s3 INSERT INTO t VALUES (4, 42)
s3 INSERT INTO t VALUES (4, 43)
s3 SELECT * FROM t
