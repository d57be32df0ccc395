-- Row groups, as the two reports show them. Run it with groups of at most four rows, and so that a commit of six rows or
-- more packs them at once:
--
--     ./columnstore replay --group-rows 4 --direct-rows 6 < examples/groups.sql
setup CREATE TABLE orders (id int NOT NULL PRIMARY KEY, region varchar(8), amount int)
-- New rows go into a delta store, the OPEN group.
s1 INSERT INTO orders VALUES (1, 'north', 100), (2, 'south', 250), (3, 'north', 100)
s1 SELECT * FROM sys.dm_db_column_store_row_group_physical_stats
-- The fourth row fills it, so it is CLOSED; the next ones go into a new store.
s1 INSERT INTO orders VALUES (4, 'east', 400), (5, 'south', 250)
s1 SELECT * FROM sys.dm_db_column_store_row_group_physical_stats
-- A change in the OPEN store ends the old version where it stands, and adds a new one.
s1 UPDATE orders SET amount = 275 WHERE id = 5
s1 SELECT * FROM sys.dm_db_column_store_row_group_physical_stats
-- A mover's turn compresses the CLOSED store: group 3 has its rows as column segments, and what is left of group 1 is a
-- TOMBSTONE, which the next turn clears away.
m1
s1 SELECT * FROM sys.dm_db_column_store_row_group_physical_stats
m1
s1 SELECT * FROM sys.dm_db_column_store_row_group_physical_stats
-- One line for each column of each COMPRESSED group: its encoding, cells, whether one is NULL, words, least and greatest.
s1 SELECT * FROM sys.column_store_segments
-- Six rows in one commit: the four least keys are packed at once, and since fewer than six are left then, the others go
-- into the store, which they fill.
s1 INSERT INTO orders SELECT value, 'west', value * 10 FROM GENERATE_SERIES(11, 16)
s1 SELECT * FROM sys.dm_db_column_store_row_group_physical_stats
-- A packed row is not touched by its delete: the end stands in the delete buffer, until a mover's turn writes it into the
-- group's bitmap. But first the mover compresses the CLOSED store, and leaves out the version that had ended there.
s1 DELETE FROM orders WHERE id = 2
s1 SELECT * FROM sys.dm_db_column_store_row_group_physical_stats
m1
m1
s1 SELECT * FROM sys.dm_db_column_store_row_group_physical_stats
-- One of four rows has ended, which is a tenth or more: the group is made anew without it.
m1
s1 SELECT * FROM sys.dm_db_column_store_row_group_physical_stats
-- No answer depends on any of this.
s1 SELECT region, COUNT(*), SUM(amount) FROM orders GROUP BY region
