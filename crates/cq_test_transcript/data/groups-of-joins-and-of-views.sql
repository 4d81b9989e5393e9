-- Groups of joined rows and of the rows of views, told once, in an order and up to a limit
CREATE TABLE shops(shop TEXT, town TEXT);
CREATE TABLE sales(shop TEXT, cents INTEGER);
INSERT INTO shops VALUES ('harbour', 'Kiel'), ('market', 'Bonn'), ('pier', 'Kiel'), (NULL, 'Ulm');
INSERT INTO sales VALUES ('harbour', 1250), ('harbour', 50), ('market', 300), ('pier', 5), (NULL, 7);
CREATE VIEW by_shop AS SELECT shop, COUNT(*) AS sold, SUM(cents) AS total FROM sales GROUP BY shop;
-- groups of a join
SELECT town, COUNT(*) AS n, SUM(cents) AS total FROM shops x JOIN sales y ON x.shop = y.shop GROUP BY town;
-- a key by its source
SELECT x.shop, MAX(cents) FROM shops x JOIN sales y ON x.shop = y.shop GROUP BY x.shop;
-- the key of the other source is equal, but not grouped
SELECT y.shop FROM shops x JOIN sales y ON x.shop = y.shop GROUP BY x.shop;
-- both sources have it
SELECT COUNT(*) FROM shops x JOIN sales y ON x.shop = y.shop GROUP BY shop;
SELECT COUNT(shop) FROM shops x JOIN sales y ON x.shop = y.shop GROUP BY town;
-- a key by two names
SELECT town FROM shops x JOIN sales y ON x.shop = y.shop GROUP BY town HAVING x.town = 'Kiel';
-- HAVING over joined rows
SELECT town FROM shops x JOIN sales y ON x.shop = y.shop GROUP BY town HAVING COUNT(*) > 1 AND MIN(cents) = 5;
-- a table joined with itself
SELECT x.town, COUNT(*) FROM shops x JOIN shops y ON x.town = y.town GROUP BY x.town;
-- a join without rows
SELECT COUNT(*), SUM(cents) FROM shops x JOIN sales y ON x.town = y.shop;
SELECT town, COUNT(*) FROM shops x JOIN sales y ON x.town = y.shop GROUP BY town;
-- groups of a view, and totals of its totals
SELECT sold, COUNT(*) AS shops, MAX(total) AS most FROM by_shop GROUP BY sold;
SELECT SUM(total), SUM(sold), COUNT(shop) FROM by_shop;
-- a view beside a table
SELECT town, SUM(total) AS total FROM shops x JOIN by_shop y ON x.shop = y.shop GROUP BY town;
-- DISTINCT over groups
SELECT DISTINCT COUNT(*) FROM sales GROUP BY shop;
SELECT DISTINCT sold FROM by_shop GROUP BY sold, total;
-- in an order, by a name, by a place and by the name of a place
SELECT shop, SUM(cents) AS total FROM sales GROUP BY shop ORDER BY total DESC;
SELECT shop, SUM(cents) FROM sales GROUP BY shop ORDER BY 2;
SELECT shop, SUM(cents) FROM sales GROUP BY shop ORDER BY c2 DESC LIMIT 1;
-- by two keys, NULL first behind DESC
SELECT shop, COUNT(*) AS n FROM sales GROUP BY shop ORDER BY n DESC, shop DESC;
-- what the keys leave open is sorted by all columns
SELECT COUNT(*) AS n, shop FROM sales GROUP BY shop ORDER BY n;
-- a limit, also of none
SELECT shop FROM sales GROUP BY shop LIMIT 2;
SELECT shop, COUNT(*) FROM sales GROUP BY shop LIMIT 0;
SELECT COUNT(*) FROM sales LIMIT 0;
-- all of it
SELECT DISTINCT COUNT(*) AS n FROM sales WHERE cents < 1000 GROUP BY shop HAVING MAX(cents) > 5
    ORDER BY n DESC LIMIT 1;
-- a key of ORDER BY is a column of the result, and no grouped one that is not shown
SELECT COUNT(*) AS n FROM sales GROUP BY shop ORDER BY shop;
-- a write, and the groups of the view follow
DELETE FROM sales WHERE shop = 'harbour';
SELECT SUM(sold), MAX(total) FROM by_shop;
UPDATE sales SET cents = cents + 1;
SELECT SUM(total), SUM(sold) FROM by_shop;
