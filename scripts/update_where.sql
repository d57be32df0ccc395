-- An UPDATE changes the rows for which its condition is true; `m` counts how often that was.
setup CREATE TABLE t (k int NOT NULL PRIMARY KEY, a int, b int, w varchar(4), m int)
s1 INSERT INTO t (k, a, b, w, m) VALUES (1, 1, 2, 'ab', 0), (2, 2, 2, 'a', 0), (3, 3, 2, NULL, 0), (4, NULL, 2, 'b', 0), (5, 2, NULL, '', 0), (6, NULL, NULL, 'aab', 0), (7, -1, -1, NULL, 0)
s1 UPDATE t SET m = m + 1 WHERE a = b
s1 SELECT m FROM t
s1 UPDATE t SET m = m + 1 WHERE NOT a = b
s1 SELECT m FROM t
s1 UPDATE t SET m = m + 1 WHERE a <> NULL
s1 SELECT m FROM t
s1 UPDATE t SET m = m + 1 WHERE NOT a < 2
s1 SELECT m FROM t
s1 UPDATE t SET m = m + 1 WHERE a >= b OR b IS NULL
s1 SELECT m FROM t
s1 UPDATE t SET m = m + 1 WHERE a BETWEEN 2 AND NULL
s1 SELECT m FROM t
s1 UPDATE t SET m = m + 1 WHERE a NOT BETWEEN NULL AND 2
s1 SELECT m FROM t
s1 UPDATE t SET m = m + 1 WHERE a NOT BETWEEN 2 AND 2
s1 SELECT m FROM t
s1 UPDATE t SET m = m + 1 WHERE a IN (1, NULL)
s1 SELECT m FROM t
s1 UPDATE t SET m = m + 1 WHERE a NOT IN (1, 2)
s1 SELECT m FROM t
s1 UPDATE t SET m = m + 1 WHERE a NOT IN (1, NULL)
s1 SELECT m FROM t
s1 UPDATE t SET m = m + 1 WHERE w LIKE 'a%'
s1 SELECT m FROM t
s1 UPDATE t SET m = m + 1 WHERE w NOT LIKE '%b'
s1 SELECT m FROM t
s1 UPDATE t SET m = m + 1 WHERE NOT w LIKE '_'
s1 SELECT m FROM t
s1 UPDATE t SET m = m + 1 WHERE w IS NULL
s1 SELECT m FROM t
s1 UPDATE t SET m = m + 1 WHERE w IS NOT NULL AND a IS NOT NULL
s1 SELECT m FROM t
s1 UPDATE t SET m = m + 1 WHERE NOT (a = 2 AND b = 2)
s1 SELECT m FROM t
s1 UPDATE t SET m = m + 1 WHERE NOT (a = 1 OR b = NULL)
s1 SELECT m FROM t
s1 UPDATE t SET m = m + 1 WHERE w = '' OR a > 2
s1 SELECT m FROM t
