-- Statements whose conditions name the keys of their rows read the same rows as ever: with the key on either side, in lists with keys
-- that repeat or are missing, with numbers that are no key, beside other parts, over rows of every kind of group, under own writes and
-- at old snapshots.
setup CREATE TABLE t (k bigint NOT NULL PRIMARY KEY, v int NULL)
s1 INSERT INTO t VALUES (1, 10), (2, 20), (3, 30)
m1
s1 INSERT INTO t VALUES (4, 40), (5, 50), (6, 60)
s1 INSERT INTO t VALUES (7, NULL)
s1 SELECT * FROM sys.dm_db_column_store_row_group_physical_stats
-- the key on either side, in each kind of group
s1 SELECT * FROM t WHERE k = 2
s1 SELECT * FROM t WHERE 5 = k
s1 SELECT v FROM t WHERE k = 7
s1 SELECT * FROM t WHERE k = 8
s1 SELECT COUNT(*), SUM(v) FROM t WHERE k = 8
-- lists, with keys that stand twice, that are missing, and NULL
s1 SELECT * FROM t WHERE k IN (7, 2, 5, 2, 9, NULL, -1)
s1 SELECT * FROM t WHERE k IN (5, 2, 7) ORDER BY v DESC
s1 SELECT COUNT(*), SUM(v) FROM t WHERE k IN (4, 1, 1)
s1 SELECT * FROM t WHERE k IN (NULL)
s1 SELECT * FROM t WHERE k = NULL
-- numbers with decimals, and numbers that no bigint is
s1 SELECT * FROM t WHERE k = 5.0
s1 SELECT * FROM t WHERE k = 5.5
s1 SELECT * FROM t WHERE k IN (0.5, 5.000, 4.4, 6.6)
s1 SELECT * FROM t WHERE k = 9223372036854775808
s1 SELECT * FROM t WHERE k IN (-9223372036854775809, 1)
-- with another part, and forms that name no key
s1 SELECT * FROM t WHERE v = 20 AND k = 2
s1 SELECT * FROM t WHERE k = 2 AND v = 30
s1 SELECT * FROM t WHERE k IN (2, 3) AND k IN (3, 4)
s1 SELECT * FROM t WHERE v < 50 AND (v > 10 AND k = 4)
s1 SELECT * FROM t WHERE k = 1 OR v = 60
s1 SELECT * FROM t WHERE (k = 1 OR k = 7) AND v = 10
s1 SELECT * FROM t WHERE k NOT IN (1, 2, 3, 4)
s1 SELECT * FROM t WHERE NOT k = 1 AND v < 30
s1 SELECT * FROM t WHERE v = 30
s1 SELECT * FROM t WHERE k >= 7
-- an old snapshot beside newer versions
s2 BEGIN TRAN
s2 SELECT COUNT(*) FROM t
s1 UPDATE t SET v = 21 WHERE k = 2
s1 DELETE FROM t WHERE k IN (6, 5, 60, 5)
s1 SELECT * FROM t WHERE k IN (2, 5)
s2 SELECT * FROM t WHERE k IN (2, 5)
-- own writes over the rows of a packed group
s3 BEGIN TRAN
s3 UPDATE t SET v = v + 1 WHERE k = 1
s3 DELETE FROM t WHERE k = 3.0
s3 INSERT INTO t VALUES (8, 80)
s3 SELECT * FROM t WHERE k IN (8, 3, 1)
s3 SELECT COUNT(*) FROM t WHERE k = 3
s3 UPDATE t SET v = 0 WHERE k = 3
s3 DELETE FROM t WHERE k = 8 AND v = 80
s3 SELECT * FROM t WHERE k = 8
s1 SELECT * FROM t WHERE k IN (8, 3, 1)
s3 INSERT INTO t VALUES (3, 33)
s3 SELECT * FROM t WHERE k = 3
s3 COMMIT
s1 SELECT * FROM t WHERE k IN (1, 3, 8)
s2 SELECT * FROM t WHERE k IN (1, 3, 8)
-- and the same once all is packed, and the ends stand in bitmaps
m1
m1
m1
s1 SELECT * FROM t WHERE k IN (1, 2, 3, 5, 7)
s2 SELECT * FROM t WHERE k IN (1, 2, 3, 5, 7)
s2 DELETE FROM t WHERE k = 5
