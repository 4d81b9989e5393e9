-- The examples of docs/LANGUAGE.md
CREATE TABLE sales(shop TEXT, sold_on DATE, cents INTEGER NOT NULL);
INSERT INTO sales VALUES ('harbour', DATE '2024-02-29', 1250), (NULL, DATE '2024-03-01', 300),
    ('harbour', NULL, 50), (NULL, NULL, 25);
CREATE VIEW by_shop AS SELECT shop, COUNT(*) AS sold, COUNT(sold_on) AS dated, SUM(cents) AS total
    FROM sales GROUP BY shop;
SELECT shop, sold, dated, total FROM by_shop;
SELECT shop, SUM(cents) AS total, MAX(sold_on) AS last FROM sales GROUP BY shop HAVING COUNT(*) > 1 ORDER BY total DESC;
SELECT COUNT(*) AS sold, SUM(cents) AS total, MIN(cents) * 2 FROM sales WHERE cents > 5000;
SELECT cents, COUNT(*) FROM sales GROUP BY shop;
CREATE TABLE t(a INTEGER, b INTEGER NOT NULL);
INSERT INTO t VALUES (1,2), (NULL,3);
CREATE VIEW v AS SELECT a, SUM(b) AS s FROM t GROUP BY a;
UPDATE t SET a = b, b = 7 WHERE a = 1;
UPDATE t SET b = a;
SELECT a, b FROM t;
SELECT a, s FROM v;
SELECT shop, cents FROM sales ORDER BY shop DESC, cents LIMIT 3;
DELETE FROM sales WHERE sold_on IS NULL;
SELECT shop, total FROM by_shop;
CREATE TABLE shops(shop TEXT, town TEXT);
INSERT INTO shops VALUES ('harbour', 'Kiel'), ('market', 'Bonn'), (NULL, 'Ulm');
SELECT s.shop, town, total FROM shops s JOIN by_shop v ON s.shop = v.shop;
SELECT shop FROM shops s JOIN by_shop v ON s.shop = v.shop;
SELECT DISTINCT town FROM shops x JOIN sales y ON y.shop = x.shop;
CREATE TABLE notes(note TEXT);
INSERT INTO notes VALUES ('a,b'), ('he said "no"'), (''), (NULL), ('\N');
SELECT note FROM notes;
SELECT price FROM sales WHERE cents = 'much';
SELECT price FROM sales WHERE cents > 100;
