-- A delete in two chunks of the open store, under a snapshot that still sees the rows.
setup CREATE TABLE t (k int NOT NULL PRIMARY KEY, v int NULL)
s1 INSERT INTO t SELECT value, value FROM GENERATE_SERIES(1, 1025)
s2 BEGIN TRAN
s2 SELECT COUNT(*) FROM t
s1 DELETE FROM t WHERE k >= 1024
s2 SELECT COUNT(*) FROM t
s3 SELECT COUNT(*) FROM t
