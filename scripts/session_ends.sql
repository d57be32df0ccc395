-- All sessions end after the last line, in the order of their numbers, those with an open transaction too.
setup CREATE TABLE t (k int NOT NULL PRIMARY KEY, v int NULL)
s64 BEGIN TRAN
s10 INSERT INTO t VALUES (1, 10)
s64 UPDATE t SET v = 11 WHERE k = 1
s7 BEGIN TRAN
s33 ROLLBACK
s7 BEGIN TRAN
s2 SELECT * FROM t WHERE v = 11
s7 INSERT INTO t VALUES (2, 20)
s9 BEGIN TRAN
s9 DELETE FROM t WHERE k = 2
s1 SELECT v FROM t
-- s3 is no session of this script
