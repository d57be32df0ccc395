-- On one key 1222 comes before 3960 and 3960 before 2627; of several keys the least one with an obstacle decides.
setup CREATE TABLE t (k int NOT NULL PRIMARY KEY, v int NULL)
s1 INSERT INTO t VALUES (1, 10), (2, 20), (3, 30), (4, 40)
s2 BEGIN TRAN
s2 SELECT COUNT(*) FROM t
s5 BEGIN TRAN
s5 SELECT COUNT(*) FROM t
s6 BEGIN TRAN
s6 SELECT COUNT(*) FROM t
s1 UPDATE t SET v = v + 1 WHERE k IN (1, 2)
s3 BEGIN TRAN
s3 UPDATE t SET v = 0 WHERE k = 2 OR k = 4
-- Key 1 has a newer change; key 2 has one too, and is held; key 3 is only there; key 4 is held.
s2 UPDATE t SET v = 5 WHERE k = 2
s2 DELETE FROM t WHERE k = 2
s2 INSERT INTO t VALUES (2, 5), (2, 6)
s2 INSERT INTO t VALUES (3, 5)
s2 INSERT INTO t VALUES (4, 5)
s2 INSERT INTO t VALUES (5, 5), (5, 6)
-- The least key decides, whatever stands on the others and in whatever order they come.
s2 INSERT INTO t VALUES (4, 5), (3, 5)
s2 INSERT INTO t VALUES (9, 5), (4, 5), (9, 6)
s2 INSERT INTO t VALUES (0, 5), (4, 5), (0, 6)
s2 INSERT INTO t VALUES (3, 5), (2, 5)
s2 UPDATE t SET v = 5 WHERE k > 1
s2 DELETE FROM t WHERE k >= 3
s2 INSERT INTO t SELECT 5 - value, 0 FROM GENERATE_SERIES(1, 3)
s2 INSERT INTO t SELECT 5 - value, 0 FROM GENERATE_SERIES(1, 2)
s2 INSERT INTO t VALUES (5, 50)
s2 INSERT INTO t VALUES (5, 51), (6, 60)
s2 SELECT * FROM t WHERE k > 2
-- And now the newer change of key 1.
s2 INSERT INTO t VALUES (4, 5), (3, 5), (2, 5), (1, 5)
s2 COMMIT
s5 UPDATE t SET v = 5
s6 DELETE FROM t WHERE k <= 2
s4 BEGIN TRAN
s4 SELECT * FROM t
s3 INSERT INTO t VALUES (5, 0)
s3 COMMIT
s4 DELETE FROM t WHERE k > 2
-- The other two, in one statement with a key that is only there.
s4 BEGIN TRAN
s4 SELECT COUNT(*) FROM t
s1 UPDATE t SET v = 1 WHERE k = 3
s4 INSERT INTO t VALUES (3, 1), (1, 1)
s4 INSERT INTO t VALUES (3, 1), (4, 1), (3, 2)
s4 ROLLBACK
