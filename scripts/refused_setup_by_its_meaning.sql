setup CREATE TABLE t (k decimal(19,2) PRIMARY KEY)
