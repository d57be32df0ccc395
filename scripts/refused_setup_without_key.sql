setup CREATE TABLE u (k int)
