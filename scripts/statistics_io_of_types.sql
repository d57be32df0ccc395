-- Bounds of texts, dates and decimals, which are compared at any number of places. Worked out by hand.
setup CREATE TABLE t (k int NOT NULL PRIMARY KEY, w varchar(8) NULL, d date NULL, p decimal(5,2) NULL)
s1 SET STATISTICS IO ON
s1 INSERT INTO t VALUES (1, 'apple', '2024-01-31', 1.50), (2, 'pear', '2024-02-29', 2.75)
s1 INSERT INTO t VALUES (3, 'plum', NULL, NULL), (4, NULL, NULL, 10)
s1 SELECT k FROM t WHERE w = 'apple'
s1 SELECT k FROM t WHERE w > 'pear'
s1 SELECT k FROM t WHERE w >= 'pear'
s1 SELECT k FROM t WHERE w = 'pea'
s1 SELECT k FROM t WHERE w <> 'plum'
s1 SELECT k FROM t WHERE w LIKE 'z%'
s1 SELECT k FROM t WHERE d >= '2024-02-29'
s1 SELECT k FROM t WHERE d > '20240229'
s1 SELECT k FROM t WHERE d IS NULL
s1 SELECT k FROM t WHERE d IS NOT NULL
s1 SELECT k FROM t WHERE p = 2.750
s1 SELECT k FROM t WHERE p > 2.745
s1 SELECT k FROM t WHERE p > 2.751
s1 SELECT k FROM t WHERE p BETWEEN 3 AND 9
s1 SELECT k FROM t WHERE p IN (1.5, 10.000)
s1 SELECT k FROM t WHERE w < 'b' AND p > 5
s1 SELECT k FROM t WHERE d < '2024-02-01' OR w = 'plum'
