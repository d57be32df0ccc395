-- A schema name, a key that is NONCLUSTERED, a columnstore index, dates, and decimals that are rounded.
setup CREATE TABLE dbo.orders (id bigint NOT NULL PRIMARY KEY NONCLUSTERED, placed date NOT NULL, price decimal(10,2), region varchar(20), INDEX cci CLUSTERED COLUMNSTORE)
s1 INSERT INTO dbo.orders VALUES (1, '2024-02-29', 19.99, 'north'), (2, '2024-03-01', 0.005, 'south'), (3, '20240301', 100, 'north');
s1 SELECT region, SUM(price), COUNT(*) FROM orders WHERE placed >= '2024-02-29' GROUP BY region
