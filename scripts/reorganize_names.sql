-- Any name of an index is right, in brackets or not, and whatever stands before the table's name. Words in any case.
setup CREATE TABLE t (k int NOT NULL PRIMARY KEY, v int NULL)
s1 INSERT INTO t VALUES (1, 10), (2, 20)
s1 ALTER INDEX cci ON t REORGANIZE
s1 ALTER INDEX [no such index] ON dbo.t REORGANIZE;
s1 alter index all on [T] reorganize with (compress_all_row_groups = on)
s1 ALTER INDEX [ALL] ON [dbo].[t] [Reorganize] WITH ([COMPRESS_ALL_ROW_GROUPS]=OFF) -- of the whole table
s1 ALTER/* any */INDEX reorganize ON t REORGANIZE
s1 ALTER INDEX t ON sys.t REORGANIZE
s1 SELECT * FROM sys.dm_db_column_store_row_group_physical_stats
