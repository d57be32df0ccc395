-- A byte 13 before a line's end or at the script's end is dropped, and an empty last piece is no line.
setup CREATE TABLE t (k bigint NOT NULL PRIMARY KEY, v int)
s1 SELECT * FROM t
