-- An average is cut toward zero.
setup CREATE TABLE t (k bigint NOT NULL PRIMARY KEY, v int)
s1 INSERT INTO t VALUES (1, -3), (2, 0)
s1 SELECT AVG(v) FROM t
