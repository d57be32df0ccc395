-- Blanks at the ends of a line say nothing.
setup CREATE TABLE t (k int NOT NULL PRIMARY KEY, v int NULL)
s1 INSERT INTO t VALUES (1, 10), (2, 20), (3, 30), (4, 40)
  m1
	m2>	
 m2< 
m3	
