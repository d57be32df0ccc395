-- A series of five numbers at a least load of four, of five and of six rows: its replies and its rows are the same.
setup CREATE TABLE t (k int NOT NULL PRIMARY KEY, v int NULL)
-- Keys that rise, that fall, and of which two stand twice.
s1 INSERT INTO t SELECT value, value * 10 FROM GENERATE_SERIES(1, 5)
s1 INSERT INTO t SELECT 20 - value, value FROM GENERATE_SERIES(1, 5)
s1 INSERT INTO t SELECT 30 + value / 2, 0 FROM GENERATE_SERIES(1, 5)
-- The first key has a row, one in the midst has one, and then those that had one have none.
s1 INSERT INTO t SELECT value, 0 FROM GENERATE_SERIES(5, 9)
s1 INSERT INTO t SELECT value, 0 FROM GENERATE_SERIES(12, 16)
s1 DELETE FROM t WHERE k BETWEEN 15 AND 18
s1 INSERT INTO t SELECT value, 7 FROM GENERATE_SERIES(14, 18)
-- Values that can't be computed, or that their column does not keep; these come before a key that has a row.
s1 INSERT INTO t SELECT value, 1 / (value - 43) FROM GENERATE_SERIES(41, 45)
s1 INSERT INTO t SELECT value, (value - 50) * 1000000000 FROM GENERATE_SERIES(51, 55)
s1 INSERT INTO t SELECT value, 1 / (value - 3) FROM GENERATE_SERIES(1, 5)
-- NULL where it may stand.
s1 INSERT INTO t (k) SELECT value FROM GENERATE_SERIES(61, 65)
-- A key that another transaction has written, that it has committed since, and that it had committed before.
s2 BEGIN TRAN
s2 INSERT INTO t VALUES (73, 1)
s1 INSERT INTO t SELECT value, value FROM GENERATE_SERIES(71, 75)
s1> INSERT INTO t SELECT value, value FROM GENERATE_SERIES(71, 75)
s2 COMMIT
s1<
s1 INSERT INTO t SELECT value, value FROM GENERATE_SERIES(71, 75)
-- A commit of another key in between.
s1> INSERT INTO t SELECT value, value FROM GENERATE_SERIES(81, 85)
s2 INSERT INTO t VALUES (86, 6)
s1<
-- Within a transaction, which is rolled back.
s1 BEGIN TRAN
s1 INSERT INTO t SELECT value, value FROM GENERATE_SERIES(91, 95)
s1 INSERT INTO t SELECT value, value FROM GENERATE_SERIES(95, 99)
s1 DELETE FROM t WHERE k = 95
s1 INSERT INTO t SELECT value, 0 FROM GENERATE_SERIES(95, 99)
s1 ROLLBACK
s1 SELECT * FROM t WHERE k < 40
s1 SELECT * FROM t WHERE k > 40
