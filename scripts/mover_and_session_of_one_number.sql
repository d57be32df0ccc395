-- Session 1 and mover 1 are two actors: both are half done at once, and the mover has no End.
setup CREATE TABLE t (k int NOT NULL PRIMARY KEY, v int NULL)
s1 INSERT INTO t VALUES (1, 10), (2, 20)
m1>
s1> DELETE FROM t WHERE k = 2
m1<
s1<
m1>
s1> SELECT * FROM t
s1<
m1<
s1 SELECT * FROM t
