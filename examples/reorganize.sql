-- Row groups that are reorganized by a statement, in the place of movers. Run it with groups of at most four rows, and so that a
-- commit of six rows or more packs them at once:
--
--     ./columnstore replay --group-rows 4 --direct-rows 6 < examples/reorganize.sql
setup CREATE TABLE t (k int NOT NULL PRIMARY KEY, v int NULL)
s1 INSERT INTO t SELECT value, value * 10 FROM GENERATE_SERIES(1, 5)
s1 SELECT * FROM sys.dm_db_column_store_row_group_physical_stats
-- A REORGANIZE makes the turns that a mover would: here it compresses the CLOSED store. Its events stand before its reply, which says
-- how many groups it had to leave. The OPEN store goes on taking rows.
s1 ALTER INDEX ALL ON t REORGANIZE
s1 SELECT * FROM sys.dm_db_column_store_row_group_physical_stats
-- With COMPRESS_ALL_ROW_GROUPS the OPEN store is closed first, so that it is compressed too. Row 2 has been deleted meanwhile: the end is
-- flushed from the delete buffer, the group is made anew without the row, and the two groups, which fit one, are merged.
s1 DELETE FROM t WHERE k = 2
s1 ALTER INDEX ALL ON t REORGANIZE WITH (COMPRESS_ALL_ROW_GROUPS = ON)
s1 SELECT * FROM sys.dm_db_column_store_row_group_physical_stats
-- The tombstones stay: to clear them is left to movers.
m1
s1 SELECT * FROM sys.dm_db_column_store_row_group_physical_stats
-- It waits for nobody. A CLOSED store that a mover works on is left to it, and the reply names both.
s1 INSERT INTO t SELECT value, value * 10 FROM GENERATE_SERIES(11, 14)
m1>
s1 INSERT INTO t SELECT value, value * 10 FROM GENERATE_SERIES(21, 25)
s1 ALTER INDEX ALL ON t REORGANIZE WITH (COMPRESS_ALL_ROW_GROUPS = ON)
m1<
s1 SELECT * FROM sys.dm_db_column_store_row_group_physical_stats
-- It may stand in a transaction, and no reader sees any of it. Session 2 still reads row 11, which is deleted, so the group keeps the
-- row, with its end; once the transaction is over the row goes too.
s2 BEGIN TRAN
s2 SELECT COUNT(*), SUM(v) FROM t
s1 DELETE FROM t WHERE k = 11
s2 ALTER INDEX ALL ON t REORGANIZE
s2 SELECT COUNT(*), SUM(v) FROM t
s2 COMMIT
s1 ALTER INDEX ALL ON t REORGANIZE
s1 SELECT * FROM sys.dm_db_column_store_row_group_physical_stats
s1 SELECT COUNT(*), SUM(v) FROM t
