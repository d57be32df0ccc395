-- A commit of four rows packs them at once, by the words `replay --group-rows 4 --direct-rows 4`, and the report shows the segments.
setup CREATE TABLE t (k int NOT NULL PRIMARY KEY, v int, w varchar(4))
s1 INSERT INTO t VALUES (1, 7, 'a'), (2, 7, NULL), (3, 7, 'b'), (4, 7, 'a')
s1 SELECT * FROM sys.column_store_segments
