setup CREATE TABLE t (k bigint NOT NULL PRIMARY KEY, v int)
s1 INSERT INTO t VALUES (1, 1), (2, 2)
m1>
