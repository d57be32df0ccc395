-- The last line needs no line end.
setup CREATE TABLE t (k bigint NOT NULL PRIMARY KEY, v int)
s1 SELECT * FROM t