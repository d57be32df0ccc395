-- Of so many newest changes commits drop those that no open snapshot lies below. An older snapshot is still refused what has
-- changed since it was taken, a younger one is not, and each row is found, with movers between.
setup CREATE TABLE t (k int NOT NULL PRIMARY KEY, v int NULL)
s1 INSERT INTO t SELECT value, value FROM GENERATE_SERIES(1, 1100)
s2 BEGIN TRAN
s2 SELECT COUNT(*) FROM t
s1 UPDATE t SET v = v + 1000 WHERE k <= 600
m1
s3 BEGIN TRAN
s3 SELECT COUNT(*) FROM t
s1 UPDATE t SET v = v + 1000 WHERE k >= 401
m1
m2>
s4 BEGIN TRAN
s4 SELECT COUNT(*), SUM(v) FROM t
s2 UPDATE t SET v = 0 WHERE k = 5
s3 UPDATE t SET v = 0 WHERE k = 5
s3 UPDATE t SET v = 0 WHERE k = 500
-- The only open snapshot is the third commit's now, and the fourth has more keys than are noted.
s1 INSERT INTO t SELECT value, value FROM GENERATE_SERIES(1101, 3400)
m2<
s4 UPDATE t SET v = 1 WHERE k = 5
s4 UPDATE t SET v = 1 WHERE k = 500
s4 SELECT COUNT(*), SUM(v) FROM t
s4 COMMIT
s5 BEGIN TRAN
s5 SELECT * FROM t WHERE k = 500
s6 BEGIN TRAN
s6 SELECT COUNT(*) FROM t
m1
m1
m1
s1 DELETE FROM t WHERE k <= 10
s6 UPDATE t SET v = 2 WHERE k = 5
s5 INSERT INTO t VALUES (7, 7)
s1 UPDATE t SET v = v + 1 WHERE k >= 11
m3
m3
s7 UPDATE t SET v = 3 WHERE k = 500
s7 SELECT * FROM t WHERE k = 500
s7 INSERT INTO t VALUES (7, 70)
s7 SELECT * FROM t WHERE k <= 11
s7 SELECT COUNT(*) FROM t
s7 SELECT COUNT(*), SUM(v) FROM t
s7 SELECT * FROM sys.dm_db_column_store_row_group_physical_stats
