-- The setting is a session's own: no transaction holds it, and a COMMIT or a ROLLBACK leaves it as it is.
setup CREATE TABLE t (k int NOT NULL PRIMARY KEY, v int NULL)
s1 INSERT INTO t VALUES (1, 10), (2, 20)
s2 SET STATISTICS IO ON
s1 SELECT COUNT(*) FROM t
s2 SELECT COUNT(*) FROM t
-- SET opens no transaction, in one it is no part of it.
s1 SET STATISTICS IO ON
s1 COMMIT
s1 BEGIN TRAN
s1 SELECT COUNT(*) FROM t
s1 SET STATISTICS IO OFF
s1 SELECT COUNT(*) FROM t WHERE k > 2
s1 SET STATISTICS IO ON
s1 ROLLBACK
s1 SELECT COUNT(*) FROM t WHERE k > 2
s1 BEGIN TRAN
s1 SET STATISTICS IO OFF
s1 COMMIT
s1 SELECT COUNT(*) FROM t WHERE k > 2
s1 SET STATISTICS IO ON
s1 SET STATISTICS IO ON
-- Own writes are read and are no segment; a refused statement tells nothing.
s1 BEGIN TRAN
s1 INSERT INTO t VALUES (3, 30), (4, 40), (5, 50)
s1 DELETE FROM t WHERE k = 1
s1 SELECT * FROM t WHERE v >= 30
s1 INSERT INTO t VALUES (3, 31)
s1 SELECT * FROM t WHERE v < 30
s1 ROLLBACK
s1 SELECT * FROM t WHERE v >= 30
-- The setting that stands at the Finish counts; half done it cannot change.
s3> SELECT COUNT(*) FROM t
s1 SET STATISTICS IO OFF
s3<
s3 SET STATISTICS IO ON
s3> SELECT COUNT(*) FROM t WHERE v = 10
s1 SET STATISTICS IO ON
s3<
s4> SET STATISTICS IO ON
s4<
s4 SELECT COUNT(*) FROM t
