-- Sessions side by side: each on a thread of its own, beside two movers. Run it several times, with groups of at most four rows:
--
--     ./columnstore run --movers 2 --group-rows 4 < examples/threads.sql
--
-- The lines say what each session does next, and not when. So there is no one output: the log tells in which order it came about.
setup CREATE TABLE accounts (id int NOT NULL PRIMARY KEY, balance int NOT NULL)
s1 INSERT INTO accounts SELECT value, 100 FROM GENERATE_SERIES(1, 12)
-- Sessions 2 and 3 write the same two accounts, each within a transaction. Where both come to one account, the later one is refused:
-- by 1222 as long as the other transaction is open, and after its commit by 3960, which ends the own one.
s2 BEGIN TRAN
s2 UPDATE accounts SET balance = balance + 10 WHERE id = 1
s2 UPDATE accounts SET balance = balance + 10 WHERE id = 2
s2 COMMIT
s2 SELECT * FROM accounts WHERE id <= 3
s3 BEGIN TRAN
s3 UPDATE accounts SET balance = balance - 5 WHERE id = 2
s3 UPDATE accounts SET balance = balance - 5 WHERE id = 1
s3 COMMIT
s3 SELECT * FROM accounts WHERE id <= 3
-- Session 4 reads twice within a transaction, and reads the same, whatever the others commit meanwhile.
s4 BEGIN TRAN
s4 SELECT COUNT(*), SUM(balance) FROM accounts
s4 SELECT COUNT(*), SUM(balance) FROM accounts
s4 COMMIT
-- Session 1 sees how far the movers are with its groups.
s1 SELECT * FROM sys.dm_db_column_store_row_group_physical_stats
s1 DELETE FROM accounts WHERE id > 9
s1 SELECT * FROM sys.dm_db_column_store_row_group_physical_stats
