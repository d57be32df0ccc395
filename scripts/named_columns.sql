-- Columns named in an INSERT and a SELECT, with and without case and brackets; NULL for those that are not named.
setup CREATE TABLE dbo.orders (id smallint PRIMARY KEY NONCLUSTERED, price decimal(10,2), region varchar(20), placed date NOT NULL)
s1 INSERT INTO dbo.orders VALUES (1, 19.99, 'it''s', '20240229'), (-32768, -0.005, NULL, '0001-01-01')
s1 INSERT orders (placed, id) VALUES ('2024-02-30', 2)
s1 INSERT orders (placed, id) VALUES ('2024-02-29', 2), (NULL, 32768)
s1 INSERT orders (placed, id) VALUES ('2024-03-01', 2)
s1 SELECT placed, Price, id, [ID] FROM ORDERS;
s1 SELECT region FROM orders
