-- Totals of a query below -2^127 or above 2^127 - 1: in whatever group WHERE leaves, and wherever they are named
CREATE TABLE t(k INTEGER, a INTEGER, b INTEGER);
INSERT INTO t VALUES (1, -9223372036854775808, -9223372036854775808), (1, -9223372036854775808, -9223372036854775808),
    (2, 3, 3), (3, NULL, 1), (4, -9223372036854775808, -9223372036854775808);
-- in one of its groups
SELECT k, SUM(a * b) FROM t GROUP BY k;
-- in a group that HAVING drops, being False or Unknown
SELECT k, SUM(a * b) FROM t GROUP BY k HAVING k = 2;
SELECT k, SUM(a * b) FROM t GROUP BY k HAVING NULL = 1;
-- under LIMIT 0
SELECT k, SUM(a * b) FROM t GROUP BY k LIMIT 0;
-- under DISTINCT and an order
SELECT DISTINCT SUM(a * b) * 0 AS zero FROM t GROUP BY k ORDER BY zero;
-- in HAVING alone, also beside a part of it that decides without it
SELECT k FROM t GROUP BY k HAVING SUM(a * b) > 0;
SELECT k FROM t GROUP BY k HAVING 1 = 2 AND SUM(a * b) > 0;
SELECT k FROM t GROUP BY k HAVING 1 = 1 OR SUM(a * b) IS NULL;
SELECT 7 FROM t HAVING SUM(a * b) IS NULL;
-- one of two totals
SELECT SUM(a), SUM(a * b) FROM t;
SELECT SUM(a), SUM(b) FROM t;
-- not in rows that WHERE drops
SELECT k, SUM(a * b) AS s FROM t WHERE k > 1 GROUP BY k ORDER BY s DESC;
-- other aggregates have no total
SELECT k, MIN(a * b), MAX(a * b), COUNT(a * b) FROM t GROUP BY k;
-- groups without a row have none
SELECT k, SUM(a * b) FROM t WHERE k > 4 GROUP BY k;
-- the walk comes first
SELECT SUM(a * b), k FROM t;
SELECT SUM(a * b) AS s FROM t ORDER BY zz;
-- a total that leaves the range and comes back: 2^127 and then 1 less
INSERT INTO t VALUES (1, 1, -1);
SELECT SUM(a * b) FROM t WHERE k = 1;
SELECT k, SUM(a * b) AS s FROM t GROUP BY k HAVING SUM(a * b) > 9 ORDER BY s;
-- a join that repeats a row
CREATE TABLE twice(k INTEGER);
INSERT INTO twice VALUES (4), (4);
SELECT SUM(a * b) FROM t JOIN twice ON t.k = twice.k;
SELECT COUNT(a * b) FROM t JOIN twice ON t.k = twice.k;
-- a total of a view that is shown, though a total of these is not
CREATE VIEW v AS SELECT k, SUM(a * b) AS s, COUNT(*) AS n FROM t GROUP BY k;
SELECT k, s, n FROM v WHERE k <> 1;
SELECT SUM(s) FROM v;
SELECT SUM(n), MAX(s) FROM v;
-- a total of the view that is not: each query of it is refused, also one that names no total
INSERT INTO t VALUES (1, 1, 1);
SELECT SUM(n) FROM v;
SELECT n FROM v WHERE k = 2 GROUP BY n HAVING n = 1 LIMIT 0;
SELECT COUNT(*) FROM twice JOIN v ON twice.k = v.n;
-- an order by a column that is not there comes before it
SELECT SUM(n) FROM v ORDER BY zz;
-- the table can be read
SELECT k, COUNT(*) AS n FROM t GROUP BY k ORDER BY n DESC LIMIT 1;
-- and the view again once its totals are within the range
DELETE FROM t WHERE k = 1;
SELECT SUM(n), SUM(s) FROM v;
