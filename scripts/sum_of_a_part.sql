-- Whole sums alone are judged, each query its own.
setup CREATE TABLE t (k bigint NOT NULL PRIMARY KEY, v int)
s1 INSERT INTO t VALUES (1, 2147483647), (2, 1), (3, -1)
s1 SELECT SUM(v) FROM t
s1 SELECT SUM(v) FROM t WHERE k < 3
