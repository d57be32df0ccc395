-- Rows that were deleted in a store are left out when it is packed; what remains of two groups fits one.
setup CREATE TABLE t (k int NOT NULL PRIMARY KEY, v int NULL)
s1 INSERT INTO t VALUES (1, 10), (2, 20), (3, 30), (4, 40)
s1 INSERT INTO t VALUES (5, 50), (6, 60), (7, 70), (8, 80)
s1 DELETE FROM t WHERE k IN (1, 2, 5, 6)
m1
m1
m1
m1
