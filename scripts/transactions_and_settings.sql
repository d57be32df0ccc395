-- Transactions and settings, and a report in another form, which comes before all other refusals of binding.
setup CREATE TABLE t (k bigint NOT NULL PRIMARY KEY, v int)
s1 BEGIN TRAN
s1 COMMIT
s1 ROLLBACK
s1 SET STATISTICS IO ON
s1 SET LOCK_TIMEOUT 0.0
s1 SET LOCK_TIMEOUT 5
s1 SELECT x FROM sys.column_store_segments WHERE 1 = 1
