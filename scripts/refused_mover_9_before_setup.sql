m9
setup CREATE TABLE t (k bigint NOT NULL PRIMARY KEY, v int)
