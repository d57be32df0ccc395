-- COUNT, SUM, MIN and MAX with NULL among the cells, and AVG, which is cut toward zero.
setup CREATE TABLE t (k int NOT NULL PRIMARY KEY, v int)
s1 INSERT INTO t VALUES (1, 7), (2, 0), (3, NULL), (4, -7), (5, -2), (6, 1), (7, -1)
s1 SELECT COUNT(*), COUNT(v), SUM(v), AVG(v), MIN(v), MAX(v) FROM t WHERE k < 3
s1 SELECT COUNT(*), COUNT(v), SUM(v), AVG(v), MIN(v), MAX(v) FROM t WHERE k IN (2, 4)
s1 SELECT COUNT(*), COUNT(v), SUM(v), AVG(v), MIN(v), MAX(v) FROM t WHERE k IN (1, 5)
s1 SELECT COUNT(*), COUNT(v), SUM(v), AVG(v), MIN(v), MAX(v) FROM t WHERE k IN (4, 6)
s1 SELECT COUNT(*), COUNT(v), SUM(v), AVG(v), MIN(v), MAX(v) FROM t WHERE k IN (2, 7)
s1 SELECT COUNT(*), COUNT(v), SUM(v), AVG(v), MIN(v), MAX(v) FROM t WHERE k IN (2, 6)
s1 SELECT COUNT(*), COUNT(v), SUM(v), AVG(v), MIN(v), MAX(v) FROM t WHERE k = 3
s1 SELECT COUNT(*), COUNT(v), SUM(v), AVG(v), MIN(v), MAX(v) FROM t WHERE k IN (3, 4)
s1 SELECT COUNT(*), COUNT(v), SUM(v), AVG(v), MIN(v), MAX(v) FROM t WHERE k > 7
s1 SELECT COUNT(*), COUNT(v), SUM(v), AVG(v), MIN(v), MAX(v) FROM t WHERE v < 0
s1 SELECT COUNT(*), COUNT(v), SUM(v), AVG(v), MIN(v), MAX(v) FROM t WHERE v > 0 OR v IS NULL
s1 SELECT COUNT(*), COUNT(v), SUM(v), AVG(v), MIN(v), MAX(v) FROM t WHERE v = NULL
s1 SELECT COUNT(*), COUNT(v), SUM(v), AVG(v), MIN(v), MAX(v) FROM t WHERE NOT v = 7
s1 SELECT COUNT(*), COUNT(v), SUM(v), AVG(v), MIN(v), MAX(v) FROM t WHERE v NOT IN (7, NULL)
s1 SELECT COUNT(*), COUNT(v), SUM(v), AVG(v), MIN(v), MAX(v) FROM t WHERE v IN (7, NULL)
s1 SELECT COUNT(*), COUNT(v), SUM(v), AVG(v), MIN(v), MAX(v) FROM t WHERE v BETWEEN -2 AND 1
s1 SELECT COUNT(*), COUNT(v), SUM(v), AVG(v), MIN(v), MAX(v) FROM t WHERE k > 0
s1 SELECT count(*), Sum(V) FROM t
s1 SELECT COUNT(k), COUNT ( * ) FROM t
s1 SELECT COUNT(*), COUNT(*), SUM(k), SUM(k) FROM t
s1 SELECT [MAX](v), MIN([v]) FROM T;
s1 SELECT COUNT_BIG(*) FROM t
s1 SELECT COUNT_BIG(v) FROM t
s1 SELECT COUNT(DISTINCT v) FROM t
s1 SELECT COUNT() FROM t
s1 SELECT SUM(*) FROM t
s1 SELECT SUM(v + 1) FROM t
s1 SELECT SUM(v) + 1 FROM t
s1 SELECT SUM(7) FROM t
s1 SELECT SUM(w) FROM t
s1 SELECT SUM(v), v FROM t
s1 SELECT v, COUNT(*) FROM t
s1 SELECT COUNT(*) FROM t ORDER BY v
s1 SELECT *, COUNT(*) FROM t
s1 SELECT MIN(v) FROM t WHERE MIN(v) = 1
