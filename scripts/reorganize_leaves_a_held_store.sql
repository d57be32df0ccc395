-- The one CLOSED store is a mover's, which installs it after the REORGANIZE.
setup CREATE TABLE t (k int NOT NULL PRIMARY KEY, v int NULL)
s1 INSERT INTO t VALUES (1, 10), (2, 20)
m1>
s1 ALTER INDEX ALL ON t REORGANIZE
m1<
