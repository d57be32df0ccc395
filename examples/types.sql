setup CREATE TABLE dbo.orders (id bigint NOT NULL PRIMARY KEY NONCLUSTERED, kind tinyint, amount int, level smallint, price decimal(10,2), placed date NOT NULL, region varchar(20), INDEX cci CLUSTERED COLUMNSTORE)
s1 INSERT INTO dbo.orders VALUES (1, 255, -2147483648, 32767, 19.99, '2024-02-29', 'north')
s1 INSERT INTO orders (placed, id, price, region) VALUES ('20240301', -9223372036854775808, 0.005, 'it''s here   '), ('0001-01-01', 3, -12, NULL);
s1 SELECT * FROM orders
s1 SELECT Region, [price], id FROM DBO.Orders
s1 INSERT INTO orders (id, placed, kind) VALUES (4, '2024-03-02', 256)
s1 INSERT INTO orders (id, placed, region) VALUES (4, '2024-03-02', 'x'), (5, '2024-03-02', 'a text over twenty bytes')
s1 INSERT INTO orders (id, placed) VALUES (4, NULL)
s1 INSERT INTO orders (id, placed) VALUES (9223372036854775808, '2024-03-02')
s1 INSERT INTO orders (id, placed) VALUES (4, '2023-02-29')
s1 INSERT INTO orders (id, placed) VALUES (4, 20240302)
s1 INSERT INTO orders (id, placd) VALUES (4)
s1 INSERT INTO orders (id, placed) VALUES (4)
s1 INSERT INTO orders VALUES (4)
s1 INSERT INTO orders (id, id, placed) VALUES (4, 4, '2024-03-02')
s1 SELECT id, colour FROM orders
s1 SELECT id FROM order_lines
s1 SELECT id FROM orders FOR JSON
