-- A sum is judged whole: a part of it that one of several workers finds may be out of the range of int.
setup CREATE TABLE t (k int NOT NULL PRIMARY KEY, v int NULL)
s1 INSERT INTO t VALUES (1, 2147483647), (2, 1), (3, -1)
s1 SELECT SUM(v) FROM t
