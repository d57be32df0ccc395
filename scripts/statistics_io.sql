-- How many segments each query reads and skips, where the session's setting is on.
setup CREATE TABLE t (k int NOT NULL PRIMARY KEY, v int NULL)
-- The setting is off at first.
s1 INSERT INTO t VALUES (1, 10), (2, 20), (3, NULL)
s1 INSERT INTO t VALUES (4, NULL), (5, NULL), (6, NULL)
s1 INSERT INTO t VALUES (7, 30), (8, 30), (9, 30)
s1 INSERT INTO t VALUES (10, 40), (11, 50)
s1 SELECT * FROM t WHERE v = 30
s1 SET STATISTICS IO ON
-- Three COMPRESSED groups; the store is no segment.
s1 SELECT * FROM t
s1 SELECT COUNT(*), SUM(v) FROM t
s1 SELECT COUNT(*) FROM t WHERE v = 30
s1 SELECT COUNT(*) FROM t WHERE 30 = v
-- Equal bounds do not skip; a constant below, between and above.
s1 SELECT COUNT(*) FROM t WHERE v = 10
s1 SELECT COUNT(*) FROM t WHERE v = 20
s1 SELECT COUNT(*) FROM t WHERE v = 15
s1 SELECT COUNT(*) FROM t WHERE v = 9
s1 SELECT COUNT(*) FROM t WHERE v = 21
s1 SELECT COUNT(*) FROM t WHERE v < 10
s1 SELECT COUNT(*) FROM t WHERE v <= 10
s1 SELECT COUNT(*) FROM t WHERE v > 20
s1 SELECT COUNT(*) FROM t WHERE v >= 20
s1 SELECT COUNT(*) FROM t WHERE v > 30
s1 SELECT COUNT(*) FROM t WHERE v >= 30
s1 SELECT COUNT(*) FROM t WHERE 10 > v
s1 SELECT COUNT(*) FROM t WHERE 10 >= v
s1 SELECT COUNT(*) FROM t WHERE 20 < v
s1 SELECT COUNT(*) FROM t WHERE 20 <= v
s1 SELECT COUNT(*) FROM t WHERE v <> 30
s1 SELECT COUNT(*) FROM t WHERE v <> 10
s1 SELECT COUNT(*) FROM t WHERE k <> 7
-- A comparison with NULL skips each group, and so does a column that is NULL throughout.
s1 SELECT COUNT(*) FROM t WHERE v = NULL
s1 SELECT COUNT(*) FROM t WHERE k <> NULL
s1 SELECT COUNT(*) FROM t WHERE k > NULL
s1 SELECT COUNT(*) FROM t WHERE v <> 99
s1 SELECT COUNT(*) FROM t WHERE v IS NULL
s1 SELECT COUNT(*) FROM t WHERE v IS NOT NULL
s1 SELECT COUNT(*) FROM t WHERE k IS NULL
s1 SELECT COUNT(*) FROM t WHERE k IS NOT NULL
-- BETWEEN by one of its comparisons, IN by each of its equalities.
s1 SELECT COUNT(*) FROM t WHERE k BETWEEN 3 AND 4
s1 SELECT COUNT(*) FROM t WHERE k BETWEEN 4 AND 3
s1 SELECT COUNT(*) FROM t WHERE v BETWEEN 21 AND 29
s1 SELECT COUNT(*) FROM t WHERE v BETWEEN NULL AND 99
s1 SELECT COUNT(*) FROM t WHERE k IN (1, 9)
s1 SELECT COUNT(*) FROM t WHERE k IN (0, NULL, 99)
s1 SELECT COUNT(*) FROM t WHERE v IN (15, 35)
-- AND by one part, OR by all, and no form with NOT; an even run of NOTs is none.
s1 SELECT COUNT(*) FROM t WHERE k < 4 AND v > 5
s1 SELECT COUNT(*) FROM t WHERE k < 4 AND v > 25
s1 SELECT COUNT(*) FROM t WHERE k < 2 OR v > 29
s1 SELECT COUNT(*) FROM t WHERE k < 2 OR v IS NULL OR k = 99
s1 SELECT COUNT(*) FROM t WHERE (k < 4 OR k > 6) AND v = 30
s1 SELECT COUNT(*) FROM t WHERE NOT k >= 4
s1 SELECT COUNT(*) FROM t WHERE NOT NOT k < 4
s1 SELECT COUNT(*) FROM t WHERE NOT (NOT k < 4)
s1 SELECT COUNT(*) FROM t WHERE NOT NOT NOT k >= 4
s1 SELECT COUNT(*) FROM t WHERE k NOT IN (1, 2, 3)
s1 SELECT COUNT(*) FROM t WHERE k NOT BETWEEN 0 AND 100
s1 SELECT COUNT(*) FROM t WHERE NOT v = NULL OR k = 99
s1 SELECT COUNT(*) FROM t WHERE k = v
s1 SELECT COUNT(*) FROM t WHERE k = v AND k > 6
-- A write and a report tell no counts.
s1 UPDATE t SET v = v WHERE k = 11
s1 SELECT * FROM sys.dm_db_column_store_row_group_physical_stats
s1 SET STATISTICS IO OFF
s1 SELECT COUNT(*) FROM t WHERE v = 30
