-- The end of a packed row goes from the buffer into the bitmap, and is plain once no snapshot is older.
setup CREATE TABLE t (k int NOT NULL PRIMARY KEY, v int NULL)
s1 INSERT INTO t SELECT value, value % 3 FROM GENERATE_SERIES(1, 20)
s1 DELETE FROM t WHERE k = 1
m1
m1
m1
s1 SELECT v, COUNT(*) FROM t GROUP BY v
