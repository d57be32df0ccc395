-- Whatever comes between the claim of a merge and its install: the new group gets the versions of both sources as they were lent.
setup CREATE TABLE t (k int NOT NULL PRIMARY KEY, v int NULL)
s1 INSERT INTO t SELECT value, value FROM GENERATE_SERIES(1, 5)
s1 INSERT INTO t SELECT value, value FROM GENERATE_SERIES(11, 15)
s2 BEGIN TRAN
s2 SELECT COUNT(*), SUM(v) FROM t
m1>
-- a row of one source is deleted, one of the other updated, and one deleted and inserted again
s1 DELETE FROM t WHERE k = 1
s1 UPDATE t SET v = 110 WHERE k = 11
s1 DELETE FROM t WHERE k = 2
s1 INSERT INTO t VALUES (2, 20)
-- a direct load, and another mover's flush, which leaves the entries of the claimed groups
s1 INSERT INTO t SELECT value, 0 FROM GENERATE_SERIES(201, 212)
s1 DELETE FROM t WHERE k = 201
m2
m2
s1 SELECT * FROM sys.dm_db_column_store_row_group_physical_stats
-- the floor rises: a settle, and after one more flush a rebuild
s2 SELECT COUNT(*), SUM(v) FROM t
s2 COMMIT
m2
s1 DELETE FROM t WHERE k = 202
m2
m2
-- a snapshot from here on
s3 BEGIN TRAN
s3 SELECT COUNT(*), SUM(v) FROM t
-- a store is filled, and another mover compresses it
s1 INSERT INTO t VALUES (101, 0), (102, 0), (103, 0), (104, 0)
s1 INSERT INTO t VALUES (105, 0), (106, 0), (107, 0), (108, 0)
s1 INSERT INTO t VALUES (109, 0), (110, 0)
m2
-- a merge of two other groups; then all tombstones go
s1 INSERT INTO t SELECT value, 0 FROM GENERATE_SERIES(301, 305)
s1 INSERT INTO t SELECT value, 0 FROM GENERATE_SERIES(401, 405)
m2
m2
m2
s1 SELECT * FROM sys.dm_db_column_store_row_group_physical_stats
m1<
s3 SELECT COUNT(*), SUM(v) FROM t
s3 COMMIT
s1 SELECT * FROM sys.dm_db_column_store_row_group_physical_stats
s1 SELECT * FROM t WHERE k <= 15
s1 SELECT COUNT(*), SUM(v) FROM t
m1
m1
m1
s1 SELECT * FROM sys.dm_db_column_store_row_group_physical_stats
s1 SELECT COUNT(*), SUM(v) FROM t
