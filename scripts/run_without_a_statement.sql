-- No session, so no event.
setup CREATE TABLE t (k int NOT NULL PRIMARY KEY, v int NULL)
