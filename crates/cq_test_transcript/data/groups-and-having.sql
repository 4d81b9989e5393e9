-- Groups of one table: their keys, WHERE before them, and HAVING behind them
CREATE TABLE sales(shop TEXT, sold_on DATE, cents INTEGER);
INSERT INTO sales VALUES ('harbour', DATE '2024-02-29', 1250), ('harbour', DATE '2024-03-01', 300),
    ('market', DATE '2024-02-29', 50), (NULL, DATE '2024-03-01', 25), (NULL, NULL, NULL), ('market', NULL, 50);
-- NULL keys are one group
SELECT shop, COUNT(*) AS n, COUNT(cents) AS told, SUM(cents) AS total FROM sales GROUP BY shop;
-- groups without an aggregate
SELECT shop FROM sales GROUP BY shop;
-- a key that is given twice says no more than once, by any of its names
SELECT shop, COUNT(*) FROM sales GROUP BY shop, shop;
SELECT sales.shop, COUNT(*) FROM sales GROUP BY shop, sales.shop, shop;
-- two keys
SELECT shop, sold_on, COUNT(*) AS n FROM sales GROUP BY sold_on, shop;
-- a key that is not shown; equal rows of the result stay
SELECT COUNT(*) AS n FROM sales GROUP BY sold_on;
-- items that are worked out from a key, and constants
SELECT cents * 2 + 1 AS more FROM sales GROUP BY cents;
SELECT 7, 'x' FROM sales GROUP BY shop;
-- a key in parentheses is called by its place
SELECT (shop), COUNT(*) FROM sales GROUP BY shop HAVING (shop) = 'market';
-- the table has another name
SELECT s.shop, COUNT(s.cents) FROM sales s GROUP BY s.shop;
-- HAVING alone: one group of all rows
SELECT COUNT(*) FROM sales HAVING COUNT(*) > 5;
SELECT 1 FROM sales HAVING 1 = 1;
-- HAVING alone that keeps nothing, being False or Unknown
SELECT 1 FROM sales HAVING COUNT(*) > 6;
SELECT 1 FROM sales HAVING SUM(cents) = NULL;
-- over no rows there is one group without GROUP BY
SELECT COUNT(*), SUM(cents), MIN(shop), MAX(sold_on) FROM sales WHERE cents > 9999;
SELECT 'none' AS found FROM sales WHERE cents > 9999 HAVING COUNT(*) = 0;
SELECT 'some' AS found FROM sales WHERE cents > 9999 HAVING COUNT(*) > 0;
-- and none with it
SELECT COUNT(*), SUM(cents) FROM sales WHERE cents > 9999 GROUP BY shop;
SELECT COUNT(*) FROM sales WHERE cents > 9999 GROUP BY shop HAVING COUNT(*) = 0;
-- HAVING by a key
SELECT shop, COUNT(*) AS n FROM sales GROUP BY shop HAVING shop IS NOT NULL;
-- by a key and an aggregate that no item shows
SELECT COUNT(*) AS n FROM sales GROUP BY shop HAVING shop < 'k';
SELECT shop FROM sales GROUP BY shop HAVING MAX(cents) > 100;
-- that keeps no group, and every group
SELECT shop FROM sales GROUP BY shop HAVING COUNT(*) = 3;
SELECT shop FROM sales GROUP BY shop HAVING MIN(sold_on) < NULL;
SELECT shop FROM sales GROUP BY shop HAVING NULL IS NULL;
-- WHERE comes before groups and HAVING behind them
SELECT shop, SUM(cents) FROM sales WHERE sold_on IS NOT NULL GROUP BY shop HAVING COUNT(*) = 1;
-- the names of items are no columns of GROUP BY and HAVING
SELECT shop AS s, COUNT(*) FROM sales GROUP BY s;
SELECT shop, COUNT(*) AS n FROM sales GROUP BY shop HAVING n > 1;
