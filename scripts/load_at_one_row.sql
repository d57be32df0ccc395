-- From one row on all rows are packed at once, and no store is ever opened.
setup CREATE TABLE t (k int NOT NULL PRIMARY KEY, v int NULL)
s1 INSERT INTO t VALUES (1, 10)
s1 INSERT INTO t VALUES (2, 20), (3, 30), (4, 40), (5, 50)
s1 UPDATE t SET v = 21 WHERE k = 2
s1 SELECT * FROM sys.dm_db_column_store_row_group_physical_stats
s1 SELECT * FROM t
