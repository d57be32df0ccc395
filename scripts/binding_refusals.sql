-- Refusals of reading, and each of binding: the leftmost, and a wrong table before all.
setup CREATE TABLE t (k bigint NOT NULL PRIMARY KEY, v int)
s1 INSERT INTO t VAL
s1 SELECT x FROM u
s1 SELECT k, x FROM t
s1 INSERT INTO t VALUES (1)
s1 INSERT INTO t (k, x) VALUES (1)
s1 INSERT INTO t (k, v) VALUES (1)
s1 INSERT INTO t (k) VALUES (1), (1, 2)
s1 INSERT INTO t (k, K) VALUES (1, 2)
s1 INSERT INTO t VALUES (1, 'a'), (1)
s1 INSERT INTO t VALUES (1, 2.5)
