-- A turn settles nothing where no bitmap has an end, where its ends are above the floor, and where they are plain already: it clears,
-- or finds nothing.
setup CREATE TABLE t (k int NOT NULL PRIMARY KEY, v int NULL)
s1 INSERT INTO t SELECT value, value FROM GENERATE_SERIES(1, 12)
m1
m1
s1 INSERT INTO t SELECT value, value FROM GENERATE_SERIES(21, 32)
s2 BEGIN TRAN
s2 SELECT COUNT(*) FROM t
s1 DELETE FROM t WHERE k = 1
m1
m1
m1
m1
s1 SELECT * FROM sys.dm_db_column_store_row_group_physical_stats
s2 SELECT COUNT(*) FROM t
s2 COMMIT
m1
m1
s1 SELECT * FROM sys.dm_db_column_store_row_group_physical_stats
