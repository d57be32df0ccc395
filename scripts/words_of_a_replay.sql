-- Words of a replay: each of these lists gives the same log.
setup CREATE TABLE t (k bigint NOT NULL PRIMARY KEY, v int)
s1 INSERT INTO t VALUES (2, 20), (1, NULL)
s1 SELECT * FROM t
