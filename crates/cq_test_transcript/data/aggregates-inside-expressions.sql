-- Aggregates inside arithmetic and tests, in items and in HAVING
CREATE TABLE t(g TEXT, a INTEGER, s TEXT, d DATE);
INSERT INTO t VALUES ('x', 2, 'tea', DATE '2024-02-29'), ('x', 5, 'jam', DATE '2024-12-31'), ('y', NULL, NULL, NULL),
    ('y', -3, 'te', DATE '2023-03-01'), ('z', NULL, NULL, NULL);
-- sums and products of counts
SELECT g, COUNT(*) * 10 + COUNT(a) AS n FROM t GROUP BY g;
-- a difference, a product and a sign
SELECT g, MAX(a) - MIN(a) AS spread, MAX(a) * MIN(a) AS p, -COUNT(a) AS m FROM t GROUP BY g;
-- a total times zero
SELECT g, SUM(a) * 0 AS zero FROM t GROUP BY g;
-- an aggregate of an expression
SELECT g, SUM(a * a + 1) FROM t GROUP BY g;
SELECT MAX(EXTRACT(MONTH FROM d)), MIN(-a), MAX(2 * a - 1) FROM t;
-- a key beside an aggregate
SELECT a + COUNT(*) FROM t GROUP BY a;
-- parts of the latest and of the first day
SELECT g, EXTRACT(YEAR FROM MAX(d)) AS y, EXTRACT(DAY FROM MIN(d)) AS first FROM t GROUP BY g;
-- an aggregate in parentheses
SELECT (COUNT(*)), COUNT(*), (COUNT(*) + 1) * 2 FROM t;
-- one aggregate twice
SELECT SUM(a), SUM(a), SUM(a) * 0 FROM t WHERE g = 'x' HAVING SUM(a) > 6;
SELECT g, COUNT(*) AS n, COUNT(*) FROM t GROUP BY g HAVING COUNT(*) = COUNT(*);
-- comparisons in HAVING
SELECT g FROM t GROUP BY g HAVING COUNT(a) < COUNT(*);
SELECT g FROM t GROUP BY g HAVING MAX(d) >= DATE '2024-01-01';
SELECT g FROM t GROUP BY g HAVING MAX(a) + MIN(a) <> 7;
-- BETWEEN
SELECT g FROM t GROUP BY g HAVING SUM(a) BETWEEN 1 AND 10;
SELECT g FROM t GROUP BY g HAVING SUM(a) NOT BETWEEN 1 AND 10;
SELECT g FROM t GROUP BY g HAVING 2 BETWEEN MIN(a) AND COUNT(*);
SELECT g FROM t GROUP BY g HAVING MIN(d) BETWEEN DATE '2023-01-01' AND DATE '2023-12-31';
-- IN
SELECT g FROM t GROUP BY g HAVING COUNT(a) IN (0, 2);
SELECT g FROM t GROUP BY g HAVING COUNT(a) NOT IN (0, 2);
SELECT g FROM t GROUP BY g HAVING MAX(a) NOT IN (5, NULL);
SELECT g FROM t GROUP BY g HAVING 5 IN (MIN(a), MAX(a));
-- LIKE
SELECT g FROM t GROUP BY g HAVING MAX(s) LIKE 'te%';
SELECT g FROM t GROUP BY g HAVING MAX(s) NOT LIKE '___';
-- IS NULL
SELECT g FROM t GROUP BY g HAVING SUM(a) IS NULL;
-- EXTRACT
SELECT g FROM t GROUP BY g HAVING EXTRACT(MONTH FROM MIN(d)) = 2;
-- AND, OR and NOT
SELECT g FROM t GROUP BY g HAVING COUNT(*) = 2 AND (MIN(a) < 0 OR NOT COUNT(s) = 2);
-- an aggregate of a constant is that of its rows
SELECT SUM(1), SUM(NULL), COUNT(1), COUNT(NULL), COUNT('x'), MAX('x'), MIN(DATE '2024-02-29') FROM t;
-- and over no rows of none
SELECT SUM(1), COUNT(1), MAX('x') FROM t WHERE g = 'w';
