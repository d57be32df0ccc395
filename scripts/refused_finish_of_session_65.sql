setup CREATE TABLE t (k bigint NOT NULL PRIMARY KEY, v int)
s64> COMMIT
s65<
