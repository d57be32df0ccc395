-- The least load is greater than a group: groups of two while at least five rows are left, the other four into stores.
setup CREATE TABLE t (k int NOT NULL PRIMARY KEY, v int NULL)
s1 INSERT INTO t SELECT value, value FROM GENERATE_SERIES(1, 8)
s1 SELECT * FROM sys.dm_db_column_store_row_group_physical_stats
