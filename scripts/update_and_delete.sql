-- An UPDATE reads the row as it was; a DELETE.
setup CREATE TABLE t (k int PRIMARY KEY, a int, b int)
s1 INSERT INTO t VALUES (1, 1, 2), (2, 3, NULL)
s1 UPDATE t SET a = b, b = a
s1 UPDATE t SET a = a + 1 WHERE a = 2
s1 UPDATE t SET b = 2147483647 + b
s1 SELECT * FROM t
s1 DELETE FROM t WHERE a IS NULL
s1 SELECT * FROM t
s1 DELETE t
s1 SELECT * FROM t
