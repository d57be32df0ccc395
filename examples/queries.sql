setup CREATE TABLE orders (id int NOT NULL PRIMARY KEY, placed date NOT NULL, amount int, price decimal(10,2), region varchar(20))
s1 INSERT INTO orders VALUES (1, '2024-02-29', 10, 19.99, 'north'), (2, '2024-03-01', NULL, 0.005, 'south'), (3, '20240301', 7, 100, 'north'), (4, '2023-12-31', -7, 2.5, NULL)
s1 SELECT region, COUNT(*), SUM(price), AVG(amount) FROM orders WHERE placed >= '2024-01-01' GROUP BY region ORDER BY region DESC
s1 SELECT COUNT(*), COUNT(amount), SUM(amount), MIN(placed), MAX(region), AVG(amount) FROM orders
s1 SELECT id, amount FROM orders ORDER BY amount DESC, id
s1 SELECT id FROM orders WHERE amount <> 7
s1 SELECT id FROM orders WHERE amount NOT IN (7, NULL)
s1 SELECT id FROM orders WHERE NOT (region = 'north' OR price BETWEEN 2 AND 3) OR region LIKE '_or%'
s1 UPDATE orders SET amount = amount * 2 + id, region = 'east' WHERE region IS NULL OR id = 3
s1 DELETE FROM orders WHERE price < 1
s1 SELECT * FROM orders
s1 UPDATE orders SET amount = 100 / (amount - 10)
s1 INSERT INTO orders (id, placed, amount) SELECT value + 100, '2025-01-01', value % 3 FROM GENERATE_SERIES(-2, 7)
s1 SELECT amount, COUNT(*), MIN(id), MAX(id) FROM orders WHERE id > 90 GROUP BY amount
s1 UPDATE orders SET amount = 2147483647 WHERE id <= 3
s1 SELECT placed, SUM(amount) FROM orders GROUP BY placed ORDER BY placed DESC
s1 SELECT SUM(amount) FROM orders
s1 SELECT region, amount FROM orders GROUP BY region
s1 DELETE orders
