-- 1222 for each kind of write, against an own write of each kind, and what stands after it.
setup CREATE TABLE t (k int NOT NULL PRIMARY KEY, v int NULL)
s1 INSERT INTO t VALUES (1, 10), (2, 20), (3, 30), (4, 40)
-- An updated, a deleted and an inserted key, and one that was inserted and deleted again.
s1 BEGIN TRAN
s1 UPDATE t SET v = 11 WHERE k = 1
s1 DELETE FROM t WHERE k = 2
s1 INSERT INTO t VALUES (5, 50), (6, 60)
s1 DELETE FROM t WHERE k = 6
s2 UPDATE t SET v = 0 WHERE k = 1
s2 DELETE FROM t WHERE k = 1
s2 INSERT INTO t VALUES (1, 0)
s2 UPDATE t SET v = 0 WHERE k = 2
s2 DELETE t WHERE k = 2
s2 INSERT t VALUES (2, 0)
s2 INSERT INTO t VALUES (5, 0)
s2 INSERT INTO t VALUES (6, 0)
-- Keys that nobody sees are not written by UPDATE and DELETE.
s2 UPDATE t SET v = 0 WHERE k >= 5
s2 DELETE FROM t WHERE k >= 5
-- The same inside a transaction, which stays open, with its writes.
s3 BEGIN TRAN
s3 UPDATE t SET v = 33 WHERE k = 3
s3 UPDATE t SET v = 0 WHERE k < 4
s3 DELETE FROM t
s3 INSERT INTO t VALUES (7, 70), (5, 0), (8, 80)
s3 INSERT INTO t VALUES (6, 0)
s3 SELECT * FROM t
s1 DELETE FROM t WHERE k = 3
s4 DELETE FROM t WHERE k = 3
s4 UPDATE t SET v = v + 1
-- The holder's rollback frees its keys, a commit does not free older snapshots.
s1 ROLLBACK
s3 INSERT INTO t VALUES (6, 66), (5, 55)
s3 UPDATE t SET v = 0 WHERE k < 2
s3 COMMIT
s4 SELECT * FROM t
