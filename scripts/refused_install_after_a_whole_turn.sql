setup CREATE TABLE t (k bigint NOT NULL PRIMARY KEY, v int)
m1
m1<
