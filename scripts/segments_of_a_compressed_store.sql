-- The columns of a store that a mover has packed.
setup CREATE TABLE t (k int NOT NULL PRIMARY KEY, v int, w varchar(4))
s1 INSERT INTO t VALUES (1, 7, 'a'), (2, 7, NULL), (3, 7, 'b'), (4, 7, 'a')
m1
s1 SELECT * FROM sys.column_store_segments
