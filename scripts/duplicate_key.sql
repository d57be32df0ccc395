-- A key that stands twice, one that is there, and the least of several.
setup CREATE TABLE t (k bigint NOT NULL PRIMARY KEY, v int)
s1 INSERT INTO t VALUES (1, 10), (1, 11)
s1 INSERT INTO t VALUES (1, 10)
s1 INSERT INTO t VALUES (2, 20), (1, 12)
s1 SELECT * FROM t
