-- Columns in each way of keeping cells: packed and in runs, by value and by dictionary; with dates, decimals and a quote at their bounds,
-- and with NULL alone.
setup CREATE TABLE t (k int NOT NULL PRIMARY KEY, d date, w varchar(4), p decimal(3,1), n int)
s1 INSERT INTO t VALUES (1, '0001-01-01', '', -0.5, NULL), (2, '2024-02-29', 'it''s', 2.5, NULL), (3, '2024-02-29', 'it''s', 2.5, NULL)
s1 INSERT INTO t (k, n) SELECT value, value / 700 FROM GENERATE_SERIES(7000, 9099)
s1 BEGIN TRAN
s1 INSERT INTO t (k) SELECT value FROM GENERATE_SERIES(10001, 10500)
s1 INSERT INTO t (k, n) SELECT value, 7 FROM GENERATE_SERIES(10501, 11000)
s1 COMMIT
s1 SELECT * FROM sys.column_store_segments
