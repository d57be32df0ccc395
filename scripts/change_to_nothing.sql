-- A key that was inserted and deleted again is a change, for a key that never had a row too.
setup CREATE TABLE t (k int NOT NULL PRIMARY KEY, v int NULL)
s2 BEGIN TRAN
s2 SELECT * FROM t
s3 BEGIN TRAN
s3 SELECT * FROM t
s1 BEGIN TRAN
s1 INSERT INTO t VALUES (7, 70)
s1 DELETE FROM t WHERE k = 7
s1 SELECT * FROM t
s2 INSERT INTO t VALUES (7, 71)
s1 COMMIT
-- No row came of it, but the snapshots of 2 and 3 are older.
s4 SELECT COUNT(*) FROM t
s2 UPDATE t SET v = 1 WHERE k = 7
s2 DELETE FROM t WHERE k = 7
s2 INSERT INTO t VALUES (7, 72)
s3 INSERT INTO t VALUES (6, 60), (8, 80), (7, 73)
s3 COMMIT
-- A snapshot that is not older.
s3 INSERT INTO t VALUES (7, 74)
s3 SELECT * FROM t
-- A deleted key that is inserted again, and one that is written as it was.
s2 BEGIN TRAN
s2 SELECT * FROM t
s1 BEGIN TRAN
s1 DELETE FROM t WHERE k = 7
s1 INSERT INTO t VALUES (7, 74)
s1 COMMIT
s2 DELETE FROM t WHERE k = 7
s2 BEGIN TRAN
s2 SELECT * FROM t
s1 UPDATE t SET v = v
s2 UPDATE t SET v = v
-- A write of no row is no change, and a commit of none has no number.
s1 UPDATE t SET v = 0 WHERE k = 99
s1 BEGIN TRAN
s1 DELETE FROM t WHERE k = 99
s1 COMMIT
s2 BEGIN TRAN
s2 SELECT * FROM t
s1 DELETE FROM t
s2 DELETE FROM t
s1 SELECT * FROM t
