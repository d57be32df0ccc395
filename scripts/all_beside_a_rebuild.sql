-- Whatever comes between the claim of a rebuild and its install: what had ended at the claim's floor is left out, and nothing else.
setup CREATE TABLE t (k int NOT NULL PRIMARY KEY, v int NULL)
s1 INSERT INTO t SELECT value, value FROM GENERATE_SERIES(1, 12)
s1 DELETE FROM t WHERE k <= 2
m1
s2 BEGIN TRAN
s2 SELECT COUNT(*), SUM(v) FROM t
m1>
-- a lent row is deleted, one updated, and one deleted and inserted again
s1 DELETE FROM t WHERE k = 3
s1 UPDATE t SET v = 40 WHERE k = 4
s1 DELETE FROM t WHERE k = 5
s1 INSERT INTO t VALUES (5, 50)
-- a direct load, and another mover's flush, which leaves the entries of the claimed group
s1 INSERT INTO t SELECT value, 0 FROM GENERATE_SERIES(201, 212)
s1 DELETE FROM t WHERE k = 201
m2
m2
s1 SELECT * FROM sys.dm_db_column_store_row_group_physical_stats
-- the floor rises: a settle, which leaves the claimed group, and after one more flush a rebuild of the other one
s2 SELECT COUNT(*), SUM(v) FROM t
s2 COMMIT
m2
s1 DELETE FROM t WHERE k = 202
m2
m2
-- a snapshot from here on
s3 BEGIN TRAN
s3 SELECT COUNT(*), SUM(v) FROM t
-- a merge of two loads
s1 INSERT INTO t SELECT value, 0 FROM GENERATE_SERIES(301, 305)
s1 INSERT INTO t SELECT value, 0 FROM GENERATE_SERIES(401, 405)
m2
-- a store is filled, and another mover compresses it; then all tombstones go
s1 INSERT INTO t VALUES (501, 0), (502, 0), (503, 0), (504, 0)
s1 INSERT INTO t VALUES (505, 0), (506, 0), (507, 0), (508, 0)
s1 INSERT INTO t VALUES (509, 0), (510, 0)
m2
m2
m2
s1 SELECT * FROM sys.dm_db_column_store_row_group_physical_stats
m1<
s3 SELECT COUNT(*), SUM(v) FROM t
s3 COMMIT
s1 SELECT * FROM sys.dm_db_column_store_row_group_physical_stats
s1 SELECT * FROM t WHERE k <= 12
s1 SELECT COUNT(*), SUM(v) FROM t
m1
m1
m1
s1 SELECT * FROM sys.dm_db_column_store_row_group_physical_stats
s1 SELECT COUNT(*), SUM(v) FROM t
