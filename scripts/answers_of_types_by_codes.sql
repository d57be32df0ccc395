-- Dates, decimals, texts and NULLs put together: over packed groups, some of whose rows are hidden by ends in the buffer and then in the bitmap,
-- by a snapshot and by own writes, and over a store.
setup CREATE TABLE t (k int NOT NULL PRIMARY KEY, d date NULL, p decimal(9,2) NULL, s varchar(8) NULL)
s1 INSERT INTO t VALUES (1, '2024-02-29', 1.50, 'a'), (2, NULL, NULL, NULL), (3, '2023-12-31', -0.25, 'b'), (4, '2024-02-29', 10.00, ''), (5, '1999-01-01', 1.50, 'a'), (6, NULL, 2.00, 'B')
s1 INSERT INTO t VALUES (7, '2024-02-29', 1.50, 'a'), (8, '9999-12-31', 9999999.99, 'z'), (9, '0001-01-01', NULL, 'a'), (10, NULL, -0.25, NULL), (11, '2023-12-31', 0.00, 'b'), (12, '1999-01-01', 1.50, 'B')
s1 INSERT INTO t VALUES (13, '2024-03-01', -9999999.99, 'c'), (14, NULL, 1.50, 'a')
s1 SELECT s, COUNT(*), COUNT(p), SUM(p), MIN(d), MAX(d), MIN(k) FROM t GROUP BY s ORDER BY s
s1 SELECT d, COUNT(*), COUNT(s), MIN(s), MAX(s), SUM(p) FROM t GROUP BY d ORDER BY d
s1 SELECT p, COUNT(*), MAX(s), MIN(d) FROM t WHERE s IS NOT NULL GROUP BY p ORDER BY p
s1 SELECT s, d, COUNT(*), SUM(p) FROM t WHERE p <= 2 OR d IS NULL GROUP BY s, d ORDER BY s, d
s1 SELECT COUNT(*), COUNT(d), SUM(p), MIN(p), MAX(p), MIN(s), MAX(s), MIN(d), MAX(d) FROM t
s1 SELECT COUNT(*), SUM(p), MIN(s), MAX(d) FROM t WHERE s LIKE '%a%' AND d >= '1999-01-01'
s1 SELECT COUNT(*), COUNT(s), SUM(p), MIN(s) FROM t WHERE s IS NULL
s2 BEGIN TRAN
s2 SELECT COUNT(*) FROM t
s1 DELETE FROM t WHERE k IN (1, 8, 9, 13)
s1 SELECT s, COUNT(*), COUNT(p), SUM(p), MIN(d), MAX(d), MIN(k) FROM t GROUP BY s ORDER BY s
s1 SELECT d, COUNT(*), COUNT(s), MIN(s), MAX(s), SUM(p) FROM t GROUP BY d ORDER BY d
s1 SELECT p, COUNT(*), MAX(s), MIN(d) FROM t WHERE s IS NOT NULL GROUP BY p ORDER BY p
s1 SELECT s, d, COUNT(*), SUM(p) FROM t WHERE p <= 2 OR d IS NULL GROUP BY s, d ORDER BY s, d
s1 SELECT COUNT(*), COUNT(d), SUM(p), MIN(p), MAX(p), MIN(s), MAX(s), MIN(d), MAX(d) FROM t
s1 SELECT COUNT(*), SUM(p), MIN(s), MAX(d) FROM t WHERE s LIKE '%a%' AND d >= '1999-01-01'
s1 SELECT COUNT(*), COUNT(s), SUM(p), MIN(s) FROM t WHERE s IS NULL
s2 SELECT s, COUNT(*), COUNT(p), SUM(p), MIN(d), MAX(d), MIN(k) FROM t GROUP BY s ORDER BY s
s2 SELECT d, COUNT(*), COUNT(s), MIN(s), MAX(s), SUM(p) FROM t GROUP BY d ORDER BY d
s2 SELECT p, COUNT(*), MAX(s), MIN(d) FROM t WHERE s IS NOT NULL GROUP BY p ORDER BY p
s2 SELECT s, d, COUNT(*), SUM(p) FROM t WHERE p <= 2 OR d IS NULL GROUP BY s, d ORDER BY s, d
s2 SELECT COUNT(*), COUNT(d), SUM(p), MIN(p), MAX(p), MIN(s), MAX(s), MIN(d), MAX(d) FROM t
s2 SELECT COUNT(*), SUM(p), MIN(s), MAX(d) FROM t WHERE s LIKE '%a%' AND d >= '1999-01-01'
s2 SELECT COUNT(*), COUNT(s), SUM(p), MIN(s) FROM t WHERE s IS NULL
m1
s1 SELECT s, COUNT(*), COUNT(p), SUM(p), MIN(d), MAX(d), MIN(k) FROM t GROUP BY s ORDER BY s
s1 SELECT d, COUNT(*), COUNT(s), MIN(s), MAX(s), SUM(p) FROM t GROUP BY d ORDER BY d
s1 SELECT p, COUNT(*), MAX(s), MIN(d) FROM t WHERE s IS NOT NULL GROUP BY p ORDER BY p
s1 SELECT s, d, COUNT(*), SUM(p) FROM t WHERE p <= 2 OR d IS NULL GROUP BY s, d ORDER BY s, d
s1 SELECT COUNT(*), COUNT(d), SUM(p), MIN(p), MAX(p), MIN(s), MAX(s), MIN(d), MAX(d) FROM t
s1 SELECT COUNT(*), SUM(p), MIN(s), MAX(d) FROM t WHERE s LIKE '%a%' AND d >= '1999-01-01'
s1 SELECT COUNT(*), COUNT(s), SUM(p), MIN(s) FROM t WHERE s IS NULL
s2 SELECT s, COUNT(*), COUNT(p), SUM(p), MIN(d), MAX(d), MIN(k) FROM t GROUP BY s ORDER BY s
s2 SELECT d, COUNT(*), COUNT(s), MIN(s), MAX(s), SUM(p) FROM t GROUP BY d ORDER BY d
s2 SELECT p, COUNT(*), MAX(s), MIN(d) FROM t WHERE s IS NOT NULL GROUP BY p ORDER BY p
s2 SELECT s, d, COUNT(*), SUM(p) FROM t WHERE p <= 2 OR d IS NULL GROUP BY s, d ORDER BY s, d
s2 SELECT COUNT(*), COUNT(d), SUM(p), MIN(p), MAX(p), MIN(s), MAX(s), MIN(d), MAX(d) FROM t
s2 SELECT COUNT(*), SUM(p), MIN(s), MAX(d) FROM t WHERE s LIKE '%a%' AND d >= '1999-01-01'
s2 SELECT COUNT(*), COUNT(s), SUM(p), MIN(s) FROM t WHERE s IS NULL
s2 ROLLBACK
s1 BEGIN TRAN
s1 UPDATE t SET s = 'b', p = NULL WHERE k IN (5, 12)
s1 DELETE FROM t WHERE k = 4
s1 INSERT INTO t VALUES (20, '2024-02-29', 0.01, 'own')
s1 SELECT s, COUNT(*), COUNT(p), SUM(p), MIN(d), MAX(d), MIN(k) FROM t GROUP BY s ORDER BY s
s1 SELECT d, COUNT(*), COUNT(s), MIN(s), MAX(s), SUM(p) FROM t GROUP BY d ORDER BY d
s1 SELECT p, COUNT(*), MAX(s), MIN(d) FROM t WHERE s IS NOT NULL GROUP BY p ORDER BY p
s1 SELECT s, d, COUNT(*), SUM(p) FROM t WHERE p <= 2 OR d IS NULL GROUP BY s, d ORDER BY s, d
s1 SELECT COUNT(*), COUNT(d), SUM(p), MIN(p), MAX(p), MIN(s), MAX(s), MIN(d), MAX(d) FROM t
s1 SELECT COUNT(*), SUM(p), MIN(s), MAX(d) FROM t WHERE s LIKE '%a%' AND d >= '1999-01-01'
s1 SELECT COUNT(*), COUNT(s), SUM(p), MIN(s) FROM t WHERE s IS NULL
s1 ROLLBACK
s1 SELECT s, COUNT(*), COUNT(p), SUM(p), MIN(d), MAX(d), MIN(k) FROM t GROUP BY s ORDER BY s
s1 SELECT d, COUNT(*), COUNT(s), MIN(s), MAX(s), SUM(p) FROM t GROUP BY d ORDER BY d
s1 SELECT p, COUNT(*), MAX(s), MIN(d) FROM t WHERE s IS NOT NULL GROUP BY p ORDER BY p
s1 SELECT s, d, COUNT(*), SUM(p) FROM t WHERE p <= 2 OR d IS NULL GROUP BY s, d ORDER BY s, d
s1 SELECT COUNT(*), COUNT(d), SUM(p), MIN(p), MAX(p), MIN(s), MAX(s), MIN(d), MAX(d) FROM t
s1 SELECT COUNT(*), SUM(p), MIN(s), MAX(d) FROM t WHERE s LIKE '%a%' AND d >= '1999-01-01'
s1 SELECT COUNT(*), COUNT(s), SUM(p), MIN(s) FROM t WHERE s IS NULL
