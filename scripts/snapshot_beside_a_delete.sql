-- A transaction reads its snapshot after another session's commit; a new one reads what was committed.
setup CREATE TABLE t (k int NOT NULL PRIMARY KEY, v int NULL)
s1 INSERT INTO t VALUES (1, 10), (2, 20)
s2 BEGIN TRAN
s2 SELECT COUNT(*) FROM t
s1 DELETE FROM t WHERE k = 1
s2 SELECT * FROM t
s3 SELECT * FROM t
