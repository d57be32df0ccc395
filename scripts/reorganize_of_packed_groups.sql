-- All four choices in one REORGANIZE: a CLOSED store is compressed, entries of the delete buffer are flushed, groups with a tenth of
-- removable rows are made anew, and groups that fit one are merged, until nothing of these is left.
setup CREATE TABLE t (k int NOT NULL PRIMARY KEY, v int NULL)
s1 SET STATISTICS IO ON
s1 INSERT INTO t SELECT value, value FROM GENERATE_SERIES(1, 10)
s1 INSERT INTO t SELECT value, value FROM GENERATE_SERIES(11, 20)
s1 INSERT INTO t SELECT value, value FROM GENERATE_SERIES(21, 24)
s1 INSERT INTO t SELECT value, value FROM GENERATE_SERIES(31, 33)
s1 INSERT INTO t SELECT value, value FROM GENERATE_SERIES(34, 36)
s1 INSERT INTO t SELECT value, value FROM GENERATE_SERIES(37, 39)
s1 INSERT INTO t VALUES (40, 40)
s1 DELETE FROM t WHERE k IN (1, 2, 3, 4, 15, 23, 40)
s1 UPDATE t SET v = 0 WHERE k = 11
s1 SELECT * FROM sys.dm_db_column_store_row_group_physical_stats
s1 ALTER INDEX ALL ON t REORGANIZE
s1 SELECT * FROM sys.dm_db_column_store_row_group_physical_stats
s1 SELECT COUNT(*), SUM(v) FROM t
s1 ALTER INDEX ALL ON t REORGANIZE
s1 SELECT * FROM sys.dm_db_column_store_row_group_physical_stats
s1 ALTER INDEX ALL ON t REORGANIZE WITH (COMPRESS_ALL_ROW_GROUPS = ON)
s1 SELECT * FROM sys.dm_db_column_store_row_group_physical_stats
s1 SELECT * FROM t
