-- A refused value comes before all obstacles, and leaves an open transaction as it was.
setup CREATE TABLE t (k int NOT NULL PRIMARY KEY, a tinyint, v int NOT NULL, w varchar(2))
s1 INSERT INTO t VALUES (1, 1, 10, 'a'), (2, 2, 20, 'b'), (3, 3, 30, 'c')
s2 BEGIN TRAN
s2 UPDATE t SET v = 21 WHERE k = 2
s3 BEGIN TRAN
s3 SELECT COUNT(*) FROM t
s1 UPDATE t SET v = 31 WHERE k = 3
-- Key 1 is there, key 2 is held, key 3 has a newer change.
s3 INSERT INTO t VALUES (1, 0, 0, 'x'), (4, 0, 1 / 0, 'x')
s3 INSERT INTO t VALUES (2, 256, 0, 'x')
s3 INSERT INTO t VALUES (3, 0, 0, 'xyz')
s3 INSERT INTO t VALUES (NULL, 0, 0, 'x'), (3, 0, 0, 'x')
s3 INSERT INTO t (k, a) VALUES (3, 0)
s3 INSERT INTO t VALUES (5, 0, 0, 'x'), (5, 0, 2147483648, 'x')
s3 UPDATE t SET v = v / (k - 3)
s3 UPDATE t SET a = 254 + k
s3 UPDATE t SET a = 256 - k
s3 UPDATE t SET v = NULL WHERE k = 3
s3 UPDATE t SET w = 'abc', v = 2147483647 + k WHERE k >= 2
s3 SELECT SUM(v) FROM t
s3 INSERT INTO t VALUES (4, 4, 2147483647, 'd')
s3 SELECT SUM(v), COUNT(*) FROM t
s3 SELECT * FROM t
s3 COMMIT
-- Outside a transaction, beside a key that is there and one that is held.
s3 INSERT INTO t VALUES (2, 0, 0, 'xyz')
s3 UPDATE t SET v = 1 / (k - 4)
s3 INSERT INTO t (k) VALUES (1)
s3 SELECT SUM(v) FROM t
s3 SELECT * FROM t
s2 COMMIT
s3 SELECT v FROM t WHERE k = 2
