-- Whatever comes between the claim of a compress and its install: its group gets the lent versions, and their ends stay in the buffer.
setup CREATE TABLE t (k int NOT NULL PRIMARY KEY, v int NULL)
s1 INSERT INTO t SELECT value, value FROM GENERATE_SERIES(1, 12)
s1 INSERT INTO t VALUES (101, 1), (102, 2), (103, 3), (104, 4)
s1 INSERT INTO t VALUES (105, 5), (106, 6), (107, 7), (108, 8)
s1 INSERT INTO t VALUES (109, 9), (110, 10), (111, 11), (112, 12)
s2 BEGIN TRAN
s2 SELECT COUNT(*), SUM(v) FROM t
m1>
-- a lent row is deleted, one updated, and one deleted and inserted again
s1 DELETE FROM t WHERE k = 101
s1 UPDATE t SET v = 20 WHERE k = 102
s1 DELETE FROM t WHERE k = 103
s1 INSERT INTO t VALUES (103, 30)
-- two direct loads; another mover's flush, its merge, and its clear of the merge's sources
s1 INSERT INTO t SELECT value, 0 FROM GENERATE_SERIES(201, 205)
s1 INSERT INTO t SELECT value, 0 FROM GENERATE_SERIES(301, 305)
s1 DELETE FROM t WHERE k = 1
m2
m2
m2
s1 SELECT * FROM sys.dm_db_column_store_row_group_physical_stats
-- the floor rises: a settle, and after one more flush a rebuild
s2 SELECT COUNT(*), SUM(v) FROM t
s2 COMMIT
m2
s1 DELETE FROM t WHERE k = 2
m2
m2
-- a snapshot from here on
s3 BEGIN TRAN
s3 SELECT COUNT(*), SUM(v) FROM t
-- a store is filled, and another mover compresses it; then all tombstones go
s1 INSERT INTO t VALUES (113, 0), (114, 0), (115, 0), (116, 0)
s1 INSERT INTO t VALUES (117, 0), (118, 0), (119, 0), (120, 0)
s1 INSERT INTO t VALUES (121, 0), (122, 0)
m2
m2
m2
s1 SELECT * FROM sys.dm_db_column_store_row_group_physical_stats
m1<
s3 SELECT COUNT(*), SUM(v) FROM t
s3 COMMIT
s1 SELECT * FROM sys.dm_db_column_store_row_group_physical_stats
s1 SELECT * FROM t WHERE k BETWEEN 100 AND 112
s1 SELECT COUNT(*), SUM(v) FROM t
m1
m1
m1
m1
s1 SELECT * FROM sys.dm_db_column_store_row_group_physical_stats
s1 SELECT COUNT(*), SUM(v) FROM t
