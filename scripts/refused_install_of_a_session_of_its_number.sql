setup CREATE TABLE t (k bigint NOT NULL PRIMARY KEY, v int)
s1> COMMIT
m1<
s1<
