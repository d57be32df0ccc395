-- Writes that later conditions see, and writes that are refused.
setup CREATE TABLE t (k int NOT NULL PRIMARY KEY, a int, b int, w varchar(4), m int)
s1 INSERT INTO t (k, a, b, w, m) VALUES (1, 1, 2, 'ab', 0), (2, 2, 2, 'a', 0), (3, 3, 2, NULL, 0), (4, NULL, 2, 'b', 0), (5, 2, NULL, '', 0), (6, NULL, NULL, 'aab', 0), (7, -1, -1, NULL, 0)
s1 UPDATE t SET a = NULL WHERE a = 2
s1 SELECT k FROM t WHERE a IS NULL
s1 UPDATE t SET a = 5, w = NULL WHERE a IS NULL
s1 SELECT k, a, w FROM t WHERE a = 5
s1 UPDATE t SET w = 'x' WHERE w IS NULL AND NOT a <> 5
s1 SELECT w, COUNT(*) FROM t GROUP BY w
s1 UPDATE t SET a = b, b = a WHERE a <> b
s1 SELECT k, a, b FROM t
s1 UPDATE t SET b = a / b WHERE b IS NOT NULL
s1 UPDATE t SET m = 10 / (k - 5) WHERE k > 3
s1 UPDATE t SET m = 10 / (k - 5) WHERE k > 5
s1 UPDATE t SET m = 2147483647 + k WHERE a IS NOT NULL
s1 UPDATE t SET m = NULL + k WHERE k IN (1, 2, NULL)
s1 UPDATE t SET w = 'abcde' WHERE w LIKE '%'
s1 UPDATE t SET w = 'abcd' WHERE w = NULL
s1 SELECT * FROM t
s1 DELETE FROM t WHERE m = NULL
s1 DELETE FROM t WHERE NOT m = 0
s1 SELECT k, m FROM t
s1 DELETE FROM t WHERE m IS NULL OR m = 0
s1 SELECT COUNT(*), SUM(m), MIN(w) FROM t
s1 UPDATE t SET m = 1 WHERE a = 'x'
s1 DELETE FROM t WHERE 1 = 1
s1 DELETE t WHERE NULL = NULL
s1 DELETE t WHERE a LIKE
s1 UPDATE t SET m = 1 WHERE k LIKE '%'
s1 UPDATE t SET k = 1 WHERE k IS NULL
s1 UPDATE t SET m = 1 WHERE a !> 2
