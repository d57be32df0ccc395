-- MIN and MAX of every type: over no rows, over NULL alone, and at the limits.
setup CREATE TABLE t (k int NOT NULL PRIMARY KEY, a tinyint, b smallint, c int, d bigint, e decimal(6,2), f date, g varchar(4))
s1 SELECT MIN(k), MAX(k), COUNT(k), COUNT(*) FROM t
s1 SELECT MIN(a), MAX(a), COUNT(a), COUNT(*) FROM t
s1 SELECT MIN(b), MAX(b), COUNT(b), COUNT(*) FROM t
s1 SELECT MIN(c), MAX(c), COUNT(c), COUNT(*) FROM t
s1 SELECT MIN(d), MAX(d), COUNT(d), COUNT(*) FROM t
s1 SELECT MIN(e), MAX(e), COUNT(e), COUNT(*) FROM t
s1 SELECT MIN(f), MAX(f), COUNT(f), COUNT(*) FROM t
s1 SELECT MIN(g), MAX(g), COUNT(g), COUNT(*) FROM t
s1 SELECT SUM(a), SUM(b), SUM(c), SUM(d), SUM(e), AVG(a), AVG(b), AVG(c), AVG(d) FROM t
s1 SELECT g, MIN(a), COUNT(*) FROM t GROUP BY g
s1 SELECT * FROM t ORDER BY g DESC
s1 INSERT INTO t (k) VALUES (-2147483648), (2147483647)
s1 SELECT MIN(k), MAX(k), COUNT(k), COUNT(*) FROM t
s1 SELECT MIN(a), MAX(a), COUNT(a), COUNT(*) FROM t
s1 SELECT MIN(b), MAX(b), COUNT(b), COUNT(*) FROM t
s1 SELECT MIN(c), MAX(c), COUNT(c), COUNT(*) FROM t
s1 SELECT MIN(d), MAX(d), COUNT(d), COUNT(*) FROM t
s1 SELECT MIN(e), MAX(e), COUNT(e), COUNT(*) FROM t
s1 SELECT MIN(f), MAX(f), COUNT(f), COUNT(*) FROM t
s1 SELECT MIN(g), MAX(g), COUNT(g), COUNT(*) FROM t
s1 SELECT SUM(a), SUM(b), SUM(c), SUM(d), SUM(e), AVG(a), AVG(b), AVG(c), AVG(d) FROM t
s1 SELECT g, MIN(a), MAX(f), COUNT(e), COUNT(*) FROM t GROUP BY g
s1 INSERT INTO t VALUES (1, 0, -32768, -2147483648, -9223372036854775808, -1.5, '0001-01-01', ''), (2, 7, 0, 0, 0, 0.25, '2024-02-29', 'Z'), (3, 255, 32767, 2147483647, 9223372036854775807, 1.5, '9999-12-31', 'a'), (4, NULL, NULL, NULL, NULL, NULL, NULL, NULL)
s1 SELECT MIN(k), MAX(k), COUNT(k), COUNT(*) FROM t
s1 SELECT MIN(a), MAX(a), COUNT(a), COUNT(*) FROM t
s1 SELECT MIN(b), MAX(b), COUNT(b), COUNT(*) FROM t
s1 SELECT MIN(c), MAX(c), COUNT(c), COUNT(*) FROM t
s1 SELECT MIN(d), MAX(d), COUNT(d), COUNT(*) FROM t
s1 SELECT MIN(e), MAX(e), COUNT(e), COUNT(*) FROM t
s1 SELECT MIN(f), MAX(f), COUNT(f), COUNT(*) FROM t
s1 SELECT MIN(g), MAX(g), COUNT(g), COUNT(*) FROM t
s1 SELECT MIN(a), MAX(b), MIN(c), MAX(d), MIN(e), MAX(f), MIN(g) FROM t WHERE k IN (2, 3, 4)
s1 SELECT MIN(f), MAX(f), MIN(g), MAX(g) FROM t WHERE f < '9999-12-31'
s1 SELECT MIN(e), MAX(e), MIN(d), MAX(d) FROM t WHERE e <> 0.25 OR e IS NULL
s1 SELECT MIN(g), MAX(g) FROM t WHERE g > ''
s1 SELECT MIN(a), MAX(a), MIN(e) FROM t WHERE a IS NULL
s1 INSERT INTO t (k, f, g) VALUES (10, '20240301', 'Zz'), (11, '2024-02-29', 'a!'), (12, NULL, 'it''s'), (13, '1969-12-31', NULL), (14, '1970-01-01', 'ab')
s1 SELECT MIN(f), MAX(f), MIN(g), MAX(g), COUNT(f), COUNT(g) FROM t WHERE k > 9 AND k < 20
s1 SELECT f, MIN(g), MAX(g), COUNT(g), COUNT(*) FROM t WHERE k BETWEEN 1 AND 20 GROUP BY f
s1 SELECT g, MIN(f), MAX(k) FROM t WHERE k > 1 GROUP BY g ORDER BY g DESC
s1 SELECT SUM(f) FROM t
s1 SELECT MIN(f), AVG(f) FROM t
s1 SELECT SUM(g) FROM t
s1 SELECT COUNT(g), AVG(g) FROM t
