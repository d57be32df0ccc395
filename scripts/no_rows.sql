-- Queries of a table without rows.
setup CREATE TABLE t (k bigint NOT NULL PRIMARY KEY, v int)
s1 SELECT * FROM t
s1 SELECT COUNT(*), SUM(v) FROM t
