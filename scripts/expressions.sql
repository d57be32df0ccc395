-- Division and remainder cut toward zero; a divisor of 0 is refused.
setup CREATE TABLE t (k bigint NOT NULL PRIMARY KEY, v int)
s1 INSERT INTO t VALUES (1, -7 / 2), (2, -7 % 2)
s1 INSERT INTO t VALUES (3, 1 / 0)
s1 SELECT * FROM t
