-- Of several keys that are there or stand twice the least is named.
setup CREATE TABLE t (k bigint NOT NULL PRIMARY KEY, v int)
s1 INSERT INTO t VALUES (3, 1), (-5, 2)
s1 INSERT INTO t VALUES (9, 1), (3, 1), (9, 1), (-5, 1)
