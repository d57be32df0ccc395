-- A DELETE takes the rows for which its condition is true, and leaves the others.
setup CREATE TABLE t (k int NOT NULL PRIMARY KEY, a int, b int, w varchar(4), m int)
s1 INSERT INTO t (k, a, b, w, m) VALUES (1, 1, 2, 'ab', 0), (2, 2, 2, 'a', 0), (3, 3, 2, NULL, 0), (4, NULL, 2, 'b', 0), (5, 2, NULL, '', 0), (6, NULL, NULL, 'aab', 0), (7, -1, -1, NULL, 0)
s1 DELETE FROM t WHERE a = b
s1 SELECT k FROM t
s1 DELETE t
s1 INSERT INTO t (k, a, b, w, m) VALUES (1, 1, 2, 'ab', 0), (2, 2, 2, 'a', 0), (3, 3, 2, NULL, 0), (4, NULL, 2, 'b', 0), (5, 2, NULL, '', 0), (6, NULL, NULL, 'aab', 0), (7, -1, -1, NULL, 0)
s1 DELETE FROM t WHERE NOT a = b
s1 SELECT k FROM t
s1 DELETE t
s1 INSERT INTO t (k, a, b, w, m) VALUES (1, 1, 2, 'ab', 0), (2, 2, 2, 'a', 0), (3, 3, 2, NULL, 0), (4, NULL, 2, 'b', 0), (5, 2, NULL, '', 0), (6, NULL, NULL, 'aab', 0), (7, -1, -1, NULL, 0)
s1 DELETE FROM t WHERE a <> NULL
s1 SELECT k FROM t
s1 DELETE t
s1 INSERT INTO t (k, a, b, w, m) VALUES (1, 1, 2, 'ab', 0), (2, 2, 2, 'a', 0), (3, 3, 2, NULL, 0), (4, NULL, 2, 'b', 0), (5, 2, NULL, '', 0), (6, NULL, NULL, 'aab', 0), (7, -1, -1, NULL, 0)
s1 DELETE FROM t WHERE NOT a < 2
s1 SELECT k FROM t
s1 DELETE t
s1 INSERT INTO t (k, a, b, w, m) VALUES (1, 1, 2, 'ab', 0), (2, 2, 2, 'a', 0), (3, 3, 2, NULL, 0), (4, NULL, 2, 'b', 0), (5, 2, NULL, '', 0), (6, NULL, NULL, 'aab', 0), (7, -1, -1, NULL, 0)
s1 DELETE FROM t WHERE a >= b OR b IS NULL
s1 SELECT k FROM t
s1 DELETE t
s1 INSERT INTO t (k, a, b, w, m) VALUES (1, 1, 2, 'ab', 0), (2, 2, 2, 'a', 0), (3, 3, 2, NULL, 0), (4, NULL, 2, 'b', 0), (5, 2, NULL, '', 0), (6, NULL, NULL, 'aab', 0), (7, -1, -1, NULL, 0)
s1 DELETE FROM t WHERE a BETWEEN 2 AND NULL
s1 SELECT k FROM t
s1 DELETE t
s1 INSERT INTO t (k, a, b, w, m) VALUES (1, 1, 2, 'ab', 0), (2, 2, 2, 'a', 0), (3, 3, 2, NULL, 0), (4, NULL, 2, 'b', 0), (5, 2, NULL, '', 0), (6, NULL, NULL, 'aab', 0), (7, -1, -1, NULL, 0)
s1 DELETE FROM t WHERE a NOT BETWEEN NULL AND 2
s1 SELECT k FROM t
s1 DELETE t
s1 INSERT INTO t (k, a, b, w, m) VALUES (1, 1, 2, 'ab', 0), (2, 2, 2, 'a', 0), (3, 3, 2, NULL, 0), (4, NULL, 2, 'b', 0), (5, 2, NULL, '', 0), (6, NULL, NULL, 'aab', 0), (7, -1, -1, NULL, 0)
s1 DELETE FROM t WHERE a NOT BETWEEN 2 AND 2
s1 SELECT k FROM t
s1 DELETE t
s1 INSERT INTO t (k, a, b, w, m) VALUES (1, 1, 2, 'ab', 0), (2, 2, 2, 'a', 0), (3, 3, 2, NULL, 0), (4, NULL, 2, 'b', 0), (5, 2, NULL, '', 0), (6, NULL, NULL, 'aab', 0), (7, -1, -1, NULL, 0)
s1 DELETE FROM t WHERE a IN (1, NULL)
s1 SELECT k FROM t
s1 DELETE t
s1 INSERT INTO t (k, a, b, w, m) VALUES (1, 1, 2, 'ab', 0), (2, 2, 2, 'a', 0), (3, 3, 2, NULL, 0), (4, NULL, 2, 'b', 0), (5, 2, NULL, '', 0), (6, NULL, NULL, 'aab', 0), (7, -1, -1, NULL, 0)
s1 DELETE FROM t WHERE a NOT IN (1, 2)
s1 SELECT k FROM t
s1 DELETE t
s1 INSERT INTO t (k, a, b, w, m) VALUES (1, 1, 2, 'ab', 0), (2, 2, 2, 'a', 0), (3, 3, 2, NULL, 0), (4, NULL, 2, 'b', 0), (5, 2, NULL, '', 0), (6, NULL, NULL, 'aab', 0), (7, -1, -1, NULL, 0)
s1 DELETE FROM t WHERE a NOT IN (1, NULL)
s1 SELECT k FROM t
s1 DELETE t
s1 INSERT INTO t (k, a, b, w, m) VALUES (1, 1, 2, 'ab', 0), (2, 2, 2, 'a', 0), (3, 3, 2, NULL, 0), (4, NULL, 2, 'b', 0), (5, 2, NULL, '', 0), (6, NULL, NULL, 'aab', 0), (7, -1, -1, NULL, 0)
s1 DELETE FROM t WHERE w LIKE 'a%'
s1 SELECT k FROM t
s1 DELETE t
s1 INSERT INTO t (k, a, b, w, m) VALUES (1, 1, 2, 'ab', 0), (2, 2, 2, 'a', 0), (3, 3, 2, NULL, 0), (4, NULL, 2, 'b', 0), (5, 2, NULL, '', 0), (6, NULL, NULL, 'aab', 0), (7, -1, -1, NULL, 0)
s1 DELETE FROM t WHERE w NOT LIKE '%b'
s1 SELECT k FROM t
s1 DELETE t
s1 INSERT INTO t (k, a, b, w, m) VALUES (1, 1, 2, 'ab', 0), (2, 2, 2, 'a', 0), (3, 3, 2, NULL, 0), (4, NULL, 2, 'b', 0), (5, 2, NULL, '', 0), (6, NULL, NULL, 'aab', 0), (7, -1, -1, NULL, 0)
s1 DELETE FROM t WHERE NOT w LIKE '_'
s1 SELECT k FROM t
s1 DELETE t
s1 INSERT INTO t (k, a, b, w, m) VALUES (1, 1, 2, 'ab', 0), (2, 2, 2, 'a', 0), (3, 3, 2, NULL, 0), (4, NULL, 2, 'b', 0), (5, 2, NULL, '', 0), (6, NULL, NULL, 'aab', 0), (7, -1, -1, NULL, 0)
s1 DELETE FROM t WHERE w IS NULL
s1 SELECT k FROM t
s1 DELETE t
s1 INSERT INTO t (k, a, b, w, m) VALUES (1, 1, 2, 'ab', 0), (2, 2, 2, 'a', 0), (3, 3, 2, NULL, 0), (4, NULL, 2, 'b', 0), (5, 2, NULL, '', 0), (6, NULL, NULL, 'aab', 0), (7, -1, -1, NULL, 0)
s1 DELETE FROM t WHERE w IS NOT NULL AND a IS NOT NULL
s1 SELECT k FROM t
s1 DELETE t
s1 INSERT INTO t (k, a, b, w, m) VALUES (1, 1, 2, 'ab', 0), (2, 2, 2, 'a', 0), (3, 3, 2, NULL, 0), (4, NULL, 2, 'b', 0), (5, 2, NULL, '', 0), (6, NULL, NULL, 'aab', 0), (7, -1, -1, NULL, 0)
s1 DELETE FROM t WHERE NOT (a = 2 AND b = 2)
s1 SELECT k FROM t
s1 DELETE t
s1 INSERT INTO t (k, a, b, w, m) VALUES (1, 1, 2, 'ab', 0), (2, 2, 2, 'a', 0), (3, 3, 2, NULL, 0), (4, NULL, 2, 'b', 0), (5, 2, NULL, '', 0), (6, NULL, NULL, 'aab', 0), (7, -1, -1, NULL, 0)
s1 DELETE FROM t WHERE NOT (a = 1 OR b = NULL)
s1 SELECT k FROM t
s1 DELETE t
s1 INSERT INTO t (k, a, b, w, m) VALUES (1, 1, 2, 'ab', 0), (2, 2, 2, 'a', 0), (3, 3, 2, NULL, 0), (4, NULL, 2, 'b', 0), (5, 2, NULL, '', 0), (6, NULL, NULL, 'aab', 0), (7, -1, -1, NULL, 0)
s1 DELETE FROM t WHERE w = '' OR a > 2
s1 SELECT k FROM t
s1 DELETE t
