-- Commits of two rows and more pack them, four at most in a group, and what is left of a commit goes into the open group. An UPDATE of
-- one row puts its version there, and the former one ends in the buffer, or beside itself in the open group. The rows of one
-- transaction are counted together.
setup CREATE TABLE t (k int NOT NULL PRIMARY KEY, v int NULL)
s1 INSERT INTO t VALUES (1, 10), (2, 20)
s1 INSERT INTO t VALUES (3, 30), (4, 40), (5, 50), (6, 60), (7, 70)
s1 UPDATE t SET v = 11 WHERE k = 1
s1 UPDATE t SET v = 71 WHERE k = 7
s1 BEGIN TRAN
s1 INSERT INTO t VALUES (8, 80)
s1 INSERT INTO t VALUES (9, 90)
s1 COMMIT
s1 SELECT * FROM sys.dm_db_column_store_row_group_physical_stats
s1 SELECT COUNT(*), SUM(v) FROM t
