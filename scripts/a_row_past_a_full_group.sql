-- A load of one row more than a group takes: a packed group of the most rows, and a store with the last one. Few of their keys are
-- read, updated and deleted by range, in the group and across its end.
setup CREATE TABLE t (k int NOT NULL PRIMARY KEY, v int NULL)
s1 INSERT INTO t SELECT value, value % 10 FROM GENERATE_SERIES(1, 1048577)
s1 SELECT * FROM sys.dm_db_column_store_row_group_physical_stats
s1 SELECT COUNT(*), SUM(v) FROM t
s1 SELECT COUNT(*), SUM(v), MIN(k), MAX(k) FROM t WHERE k BETWEEN 500000 AND 500009
s1 SELECT COUNT(*), SUM(v), MIN(k), MAX(k) FROM t WHERE k BETWEEN 131073 AND 262144
s1 SELECT * FROM t WHERE k >= 1048575
s1 SELECT * FROM t WHERE 3 > k
s1 SELECT * FROM t WHERE k > 1048577
s1 UPDATE t SET v = v + 1 WHERE k BETWEEN 1048574 AND 1048577
s1 DELETE FROM t WHERE k > 1048575 AND k < 1048577
s1 SELECT * FROM t WHERE k > 1048573
s1 SELECT COUNT(*), SUM(v) FROM t
