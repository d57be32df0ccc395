-- Keys are printed by their column's type, and the least day decides.
setup CREATE TABLE t (k date NOT NULL PRIMARY KEY, v bigint)
s1 INSERT INTO t VALUES ('2024-02-29', 1), ('1969-12-31', 2), ('0001-01-01', 3)
s2 BEGIN TRAN
s2 SELECT * FROM t
s1 UPDATE t SET v = 4 WHERE v = 2
s1 BEGIN TRAN
s1 DELETE FROM t WHERE v = 1
s2 INSERT INTO t VALUES ('9999-12-31', 0), ('2024-02-29', 0)
s2 INSERT INTO t VALUES ('2024-02-29', 0), ('0001-01-01', 0)
s2 DELETE FROM t WHERE v <= 2
s2 SELECT * FROM t
