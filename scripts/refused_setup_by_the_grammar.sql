setup CREATE TABLE t (k float PRIMARY KEY)
