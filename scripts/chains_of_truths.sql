-- Chains of three over all 27 triples; AND binds before OR, and NOT before both.
setup CREATE TABLE t (k int NOT NULL PRIMARY KEY, x int, y int, z int)
s1 INSERT INTO t VALUES (1, 1, 1, 1), (2, 1, 1, 0), (3, 1, 1, NULL), (4, 1, 0, 1), (5, 1, 0, 0), (6, 1, 0, NULL), (7, 1, NULL, 1), (8, 1, NULL, 0), (9, 1, NULL, NULL), (10, 0, 1, 1), (11, 0, 1, 0), (12, 0, 1, NULL), (13, 0, 0, 1), (14, 0, 0, 0), (15, 0, 0, NULL), (16, 0, NULL, 1), (17, 0, NULL, 0), (18, 0, NULL, NULL), (19, NULL, 1, 1), (20, NULL, 1, 0), (21, NULL, 1, NULL), (22, NULL, 0, 1), (23, NULL, 0, 0), (24, NULL, 0, NULL), (25, NULL, NULL, 1), (26, NULL, NULL, 0), (27, NULL, NULL, NULL)
s1 SELECT k FROM t WHERE x = 1 OR y = 1 AND z = 1
s1 SELECT k FROM t WHERE (x = 1 OR y = 1) AND z = 1
s1 SELECT k FROM t WHERE x = 1 AND y = 1 OR z = 1
s1 SELECT k FROM t WHERE x = 1 AND (y = 1 OR z = 1)
s1 SELECT k FROM t WHERE NOT x = 1 AND y = 1 OR z = 1
s1 SELECT k FROM t WHERE NOT (x = 1 AND y = 1 OR z = 1)
s1 SELECT k FROM t WHERE NOT (x = 1 OR y = 1 AND z = 1)
s1 SELECT k FROM t WHERE x = 1 AND y = 1 AND z = 1
s1 SELECT k FROM t WHERE NOT (x = 1 AND y = 1 AND z = 1)
s1 SELECT k FROM t WHERE x = 1 OR y = 1 OR z = 1
s1 SELECT k FROM t WHERE NOT (x = 1 OR y = 1 OR z = 1)
s1 SELECT k FROM t WHERE x = 1 OR NOT y = 1 OR z = 1 AND NOT x = 1
