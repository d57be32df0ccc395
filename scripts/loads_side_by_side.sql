-- Loads of 4,096 keys and more that commit while older snapshots are open: their keys are noted as runs.
setup CREATE TABLE t (k int NOT NULL PRIMARY KEY, v int NULL)
s4 BEGIN TRAN
s4 SELECT COUNT(*) FROM t
s1 BEGIN TRAN
s1 INSERT INTO t SELECT value, value FROM GENERATE_SERIES(1, 4096)
s2 BEGIN TRAN
s2 INSERT INTO t SELECT value, value FROM GENERATE_SERIES(10001, 15000)
s3 BEGIN TRAN
s3 SELECT COUNT(*) FROM t
s1 COMMIT
s2 COMMIT
-- A key of a run was changed since the snapshot; one between the runs, below and above them was not.
s3 INSERT INTO t VALUES (4096, 0)
s3 BEGIN TRAN
s3 SELECT COUNT(*) FROM t
s1 UPDATE t SET v = v + 1 WHERE k <= 4096
s3 DELETE FROM t WHERE k = 4096
s3 SELECT COUNT(*) FROM t
s4 INSERT INTO t VALUES (0, 0), (4097, 0), (10000, 0), (15001, 0)
s4 INSERT INTO t VALUES (10001, 0)
s4 BEGIN TRAN
s4 SELECT COUNT(*), SUM(v) FROM t
-- A load that reaches into an older run, under a snapshot that precedes both.
s1 DELETE FROM t WHERE k >= 10001
s2 BEGIN TRAN
s2 SELECT COUNT(*) FROM t
s1 INSERT INTO t SELECT value, 0 FROM GENERATE_SERIES(5000, 14999)
s2 INSERT INTO t VALUES (4999, 0)
s2 DELETE FROM t WHERE k = 15000
s2 INSERT INTO t VALUES (14999, 0)
s4 DELETE FROM t WHERE k = 4096
s4 DELETE FROM t WHERE k = 10001
s1 SELECT COUNT(*), SUM(v) FROM t
