-- NULL is a group, and the least in its order.
setup CREATE TABLE t (k bigint NOT NULL PRIMARY KEY, v int)
s1 INSERT INTO t VALUES (1, NULL), (2, 5), (3, NULL), (4, 7)
s1 SELECT v, COUNT(*), MIN(k) FROM t GROUP BY v ORDER BY v DESC
