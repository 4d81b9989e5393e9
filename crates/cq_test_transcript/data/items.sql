-- Items that are expressions, with their names, and sources with another name
CREATE TABLE t(a INTEGER, b TEXT, d DATE);
INSERT INTO t VALUES (1, 'tea', DATE '2024-02-29'), (2, 'jam', NULL), (NULL, 'te_',
    DATE '2023-03-01'), (3, NULL, DATE '2024-12-31');
CREATE VIEW v AS SELECT b, COUNT(*) AS n, SUM(a) AS s FROM t WHERE a > 0 OR a IS NULL GROUP BY b;

-- an item without a name of its own is named by its place
SELECT a + 1, a + 1 AS n, t.a, (a), b FROM t WHERE a = 1;

-- a year, a day and constants
SELECT EXTRACT(YEAR FROM d) AS y, d, 'x', NULL, 7 FROM t WHERE a = 3;

-- NULL makes an item NULL
SELECT a * a - 1 FROM t;

-- equal names are allowed in a result
SELECT a AS x, b AS x FROM t WHERE a = 1;

-- items of a view
SELECT n + 1 AS n, -n, b FROM v WHERE s > 1;

-- a total of a view
SELECT s * 0, s FROM v WHERE b = 'jam';

-- an alias
SELECT x.a FROM t x WHERE x.a = 2;

-- an alias behind AS
SELECT x.a FROM t AS x WHERE a = 2;

-- an alias of a view
SELECT w.n FROM v w WHERE w.s = 2;

-- the name of a table that has an alias
SELECT t.a FROM t x;

-- an alias that is not there
SELECT x.a FROM t;

-- the name of a table that has an alias, in WHERE
SELECT a FROM t x WHERE t.a = 1;

-- an unknown column of an alias
SELECT x.zz FROM t x;

-- an alias is no table
SELECT a FROM x;

-- a view on a table with an alias
CREATE VIEW w AS SELECT b FROM t x WHERE x.a > 1 GROUP BY b;
SELECT b FROM w;
DROP VIEW w;

-- a view on a table with an alias, asked by its own name
CREATE VIEW w AS SELECT b FROM t x WHERE t.a > 1 GROUP BY b;

-- a condition is no item
SELECT a = 1 FROM t;

-- the first item is looked up first
SELECT zz, 'x' + 1 FROM t;

-- the first item has its type first
SELECT 'x' + 1, zz FROM t;

-- a condition before an unknown column
SELECT a = 1, zz FROM t;

-- WHERE comes before the items
SELECT zz FROM t WHERE a;

-- a day that is none
SELECT DATE '2023-02-29' FROM t;

-- a total and a number
SELECT s + 0 FROM v;

-- a total with its sign turned
SELECT -s FROM v;

-- a number of 128 bits
SELECT 170141183460469231731687303715884105728 FROM t;

-- an aggregate without GROUP BY is that of all rows
SELECT COUNT(*) FROM t;

-- AS without a name
SELECT a AS FROM t;

-- two names without AS
SELECT a b FROM t;

-- AS without an alias
SELECT a FROM t AS;

-- AS before WHERE
SELECT a FROM t AS WHERE a = 1;
