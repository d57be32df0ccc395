-- SET answers ok in and outside a transaction; forms of BEGIN, COMMIT, ROLLBACK and SET that are refused; lines that
-- are skipped; blanks.
setup CREATE TABLE t (k int NOT NULL PRIMARY KEY, v int NULL)
-- A comment.
   -- s1 BEGIN TRAN
--
s2 set transaction isolation level snapshot;
s2 SET LOCK_TIMEOUT 0

s2 SET LOCK_TIMEOUT 00
s2 SET LOCK_TIMEOUT 0.0;
s2 SET LOCK_TIMEOUT 1
s2 SET LOCK_TIMEOUT -1
s2 SET LOCK_TIMEOUT
s2 SET TRANSACTION
s2 SET TRANSACTION ISOLATION LEVEL READ COMMITTED
s2 SET TRANSACTION ISOLATION LEVEL SERIALIZABLE
s2 BEGIN
s2 BEGIN TRAN x
s2 COMMIT TRAN WORK
s2 COMMIT 1
s2 ROLLBACK x
s2 ROLLBACK;;
s2 SAVE TRAN x
s2 -- nothing
s2 <
s2 > SELECT * FROM t
  s2   begin /* one */ tran;  
s2>insert into t values (1, 10)
--s2<
 s2< 
s2 SET TRANSACTION ISOLATION LEVEL SNAPSHOT
s2 SET LOCK_TIMEOUT 0
	 s1	SELECT * FROM t	
s2> Commit Work; -- and on
 
s1>   SELECT * FROM t  
s2<
s1<
s1 SELECT * FROM t
