-- Turns that find nothing have no event, and a script without sessions has no End.
setup CREATE TABLE t (k int NOT NULL PRIMARY KEY, v int NULL)
m8
m1>
m8
m1<
