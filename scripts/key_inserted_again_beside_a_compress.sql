-- A key is deleted and inserted again while its first version is being packed; its buffered end is that version's, not the new one's.
setup CREATE TABLE t (k int NOT NULL PRIMARY KEY, v int NULL)
s1 INSERT INTO t VALUES (1, 10), (2, 20)
m1>
s1 DELETE FROM t WHERE k = 1
s1 INSERT INTO t VALUES (1, 11), (3, 30)
m2
m1<
s1 SELECT * FROM t
m1
s1 SELECT * FROM sys.dm_db_column_store_row_group_physical_stats
