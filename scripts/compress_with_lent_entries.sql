-- Entries are lent below the floor of a compress, at it and above it, and one comes after the claim. The versions that had ended
-- at the floor are left out, with their entries; the other entries stay in the buffer.
setup CREATE TABLE t (k int NOT NULL PRIMARY KEY, v int NULL)
s1 INSERT INTO t SELECT value, value * 10 FROM GENERATE_SERIES(1, 5)
s1 DELETE FROM t WHERE k = 1
s1 DELETE FROM t WHERE k = 2
s2 BEGIN TRAN
s2 SELECT * FROM t
s1 DELETE FROM t WHERE k = 3
s1 SELECT * FROM sys.dm_db_column_store_row_group_physical_stats
m1>
s1 DELETE FROM t WHERE k = 4
m1<
s1 SELECT * FROM sys.dm_db_column_store_row_group_physical_stats
s2 SELECT * FROM t
s1 SELECT * FROM t
m1
s1 SELECT * FROM sys.dm_db_column_store_row_group_physical_stats
s2 SELECT * FROM t
