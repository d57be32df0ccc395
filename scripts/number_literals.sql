-- Numbers of nine digits, and a negative one.
setup CREATE TABLE t (k bigint NOT NULL PRIMARY KEY, v int)
s1 INSERT INTO t VALUES (999999999, -999999999), (-0, 007)
s1 SELECT * FROM t
