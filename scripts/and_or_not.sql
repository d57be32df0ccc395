-- AND, OR and NOT over true, false and unknown: `x = 1` and `y = 1` have each of the nine pairs.
setup CREATE TABLE t (k int NOT NULL PRIMARY KEY, x int, y int)
s1 INSERT INTO t VALUES (1, 1, 1), (2, 1, 0), (3, 1, NULL), (4, 0, 1), (5, 0, 0), (6, 0, NULL), (7, NULL, 1), (8, NULL, 0), (9, NULL, NULL)
s1 SELECT k FROM t WHERE x = 1
s1 SELECT k FROM t WHERE NOT x = 1
s1 SELECT k FROM t WHERE NOT NOT x = 1
s1 SELECT k FROM t WHERE NOT NOT NOT x = 1
s1 SELECT k FROM t WHERE x = 1 AND y = 1
s1 SELECT k FROM t WHERE NOT (x = 1 AND y = 1)
s1 SELECT k FROM t WHERE x = 1 OR y = 1
s1 SELECT k FROM t WHERE NOT (x = 1 OR y = 1)
s1 SELECT k FROM t WHERE NOT x = 1 AND y = 1
s1 SELECT k FROM t WHERE NOT (NOT x = 1 AND y = 1)
s1 SELECT k FROM t WHERE x = 1 AND NOT y = 1
s1 SELECT k FROM t WHERE NOT (x = 1 AND NOT y = 1)
s1 SELECT k FROM t WHERE NOT x = 1 AND NOT y = 1
s1 SELECT k FROM t WHERE NOT (NOT x = 1 AND NOT y = 1)
s1 SELECT k FROM t WHERE NOT x = 1 OR y = 1
s1 SELECT k FROM t WHERE NOT (NOT x = 1 OR y = 1)
s1 SELECT k FROM t WHERE x = 1 OR NOT y = 1
s1 SELECT k FROM t WHERE NOT (x = 1 OR NOT y = 1)
s1 SELECT k FROM t WHERE NOT x = 1 OR NOT y = 1
s1 SELECT k FROM t WHERE NOT (NOT x = 1 OR NOT y = 1)
s1 SELECT k FROM t WHERE x = 1 OR NOT x = 1
s1 SELECT k FROM t WHERE NOT (x = 1 OR NOT x = 1)
s1 SELECT k FROM t WHERE x = 1 AND NOT x = 1
s1 SELECT k FROM t WHERE NOT (x = 1 AND NOT x = 1)
s1 SELECT k FROM t WHERE x = y
s1 SELECT k FROM t WHERE NOT x = y
s1 SELECT k FROM t WHERE x = 1 AND y = 1 OR NOT x = 1 AND NOT y = 1
s1 SELECT k FROM t WHERE (x = 1 OR NOT y = 1) AND (NOT x = 1 OR y = 1)
s1 SELECT k FROM t WHERE x = NULL AND y = 1
s1 SELECT k FROM t WHERE NOT (x = NULL AND y = 1)
s1 SELECT k FROM t WHERE x = NULL OR y = 1
s1 SELECT k FROM t WHERE NOT (x = NULL OR y = 1)
s1 SELECT k FROM t WHERE ((NOT ((x = 1))))
