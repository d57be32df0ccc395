-- Whatever comes between the claim of a flush and its install: it takes the entries that it was lent out of the buffer, and no other.
setup CREATE TABLE t (k int NOT NULL PRIMARY KEY, v int NULL)
s1 INSERT INTO t SELECT value, value FROM GENERATE_SERIES(1, 12)
s1 INSERT INTO t SELECT value, value FROM GENERATE_SERIES(21, 32)
s2 BEGIN TRAN
s2 SELECT COUNT(*), SUM(v) FROM t
s1 DELETE FROM t WHERE k = 1
m1>
-- rows of the claimed group are deleted and updated, and the row whose end is lent is inserted again
s1 DELETE FROM t WHERE k = 2
s1 UPDATE t SET v = 30 WHERE k = 3
s1 INSERT INTO t VALUES (1, 10)
m2
-- a store is filled, and another mover compresses it
s1 INSERT INTO t VALUES (101, 0), (102, 0), (103, 0), (104, 0)
s1 INSERT INTO t VALUES (105, 0), (106, 0), (107, 0), (108, 0)
s1 INSERT INTO t VALUES (109, 0), (110, 0)
m2
-- another flush, and a merge of two direct loads
s1 DELETE FROM t WHERE k = 21
m2
s1 INSERT INTO t SELECT value, 0 FROM GENERATE_SERIES(201, 205)
s1 INSERT INTO t SELECT value, 0 FROM GENERATE_SERIES(301, 305)
m2
s1 SELECT * FROM sys.dm_db_column_store_row_group_physical_stats
-- the floor rises: a settle, and after one more flush a rebuild
s2 SELECT COUNT(*), SUM(v) FROM t
s2 COMMIT
m2
s1 DELETE FROM t WHERE k = 22
m2
m2
-- a snapshot from here on, and a clear
s3 BEGIN TRAN
s3 SELECT COUNT(*), SUM(v) FROM t
m2
m2
s1 SELECT * FROM sys.dm_db_column_store_row_group_physical_stats
m1<
s3 SELECT COUNT(*), SUM(v) FROM t
s3 COMMIT
s1 SELECT * FROM sys.dm_db_column_store_row_group_physical_stats
s1 SELECT * FROM t WHERE k <= 12
s1 SELECT COUNT(*), SUM(v) FROM t
m1
m1
m1
s1 SELECT * FROM sys.dm_db_column_store_row_group_physical_stats
s1 SELECT COUNT(*), SUM(v) FROM t
