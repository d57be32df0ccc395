-- A mover stops half way through a turn, and no reader sees it. Run it with groups of at most twelve rows, and so that a
-- commit of six rows or more packs them at once:
--
--     ./columnstore replay --group-rows 12 --direct-rows 6 < examples/migration.sql
setup CREATE TABLE t (k int NOT NULL PRIMARY KEY, v int)
s1 INSERT INTO t SELECT value, value * 10 FROM GENERATE_SERIES(1, 4)
s1 INSERT INTO t SELECT value, value * 10 FROM GENERATE_SERIES(5, 8)
s1 INSERT INTO t SELECT value, value * 10 FROM GENERATE_SERIES(9, 12)
-- Session 2 takes its snapshot, in which there are all twelve rows.
s2 BEGIN TRAN
s2 SELECT COUNT(*), SUM(v) FROM t
-- The first half of a mover's turn: the full store is lent, and the group that will be made of it has its place.
m1>
-- Nobody waits for the mover. The end of the deleted row goes into the delete buffer, since the store takes no changes.
s1 DELETE FROM t WHERE k = 1
s1 SELECT * FROM sys.dm_db_column_store_row_group_physical_stats
s1 SELECT COUNT(*), SUM(v) FROM t
s2 SELECT COUNT(*), SUM(v) FROM t
-- The second half: the group is there. It has the deleted row too, whose end came after the claim.
m1<
s1 SELECT * FROM sys.dm_db_column_store_row_group_physical_stats
s1 SELECT COUNT(*), SUM(v) FROM t
s2 SELECT COUNT(*), SUM(v) FROM t
-- The next turn takes the end from the buffer into the bitmap of the group.
m1
s1 SELECT * FROM sys.dm_db_column_store_row_group_physical_stats
-- Two more groups, which two commits have packed, fit one: a turn merges them. It may be half done too.
s1 INSERT INTO t SELECT value, value * 10 FROM GENERATE_SERIES(21, 26)
s1 INSERT INTO t SELECT value, value * 10 FROM GENERATE_SERIES(31, 36)
m1>
s3> SELECT COUNT(*), SUM(v) FROM t
m1<
s3<
s1 SELECT * FROM sys.dm_db_column_store_row_group_physical_stats
-- While session 2 has its snapshot, the end in the bitmap keeps its commit number. Once it is gone every snapshot sees that
-- end, and a turn settles it: it becomes a plain bit. One row in twelve is less than a tenth, so the group stays.
s2 SELECT COUNT(*), SUM(v) FROM t
s2 COMMIT
m1
-- What is left of the former groups is cleared away. The turn after that finds nothing to do, and is no event.
m1
m1
s1 SELECT * FROM sys.dm_db_column_store_row_group_physical_stats
s2 SELECT COUNT(*), SUM(v) FROM t
