-- Two faults at one place of a query, and at places side by side: the one that comes first in the walk is told, and at
-- one place the one with the least number
CREATE TABLE t(a INTEGER, b TEXT, d DATE);
CREATE TABLE u(a INTEGER, b TEXT);
INSERT INTO t VALUES (1, 'tea', DATE '2024-02-29'), (NULL, NULL, NULL);
CREATE VIEW v AS SELECT b, COUNT(*) AS c, SUM(a) AS s FROM t GROUP BY b;

-- FROM: an unknown table under a name that is taken
SELECT a FROM t JOIN nope t ON t.a = t.a;

-- a name that is taken, before unknown columns in ON
SELECT a FROM t JOIN t ON t.zz = t.yy;

-- a fifth table under a name that is taken
SELECT x.a FROM t x JOIN t y ON x.a = y.a JOIN t z ON x.a = z.a JOIN t p ON x.a = p.a JOIN u p ON
    x.a = p.a;

-- a fifth table, before unknown columns in ON
SELECT x.a FROM t x JOIN t y ON x.a = y.a JOIN t z ON x.a = z.a JOIN t p ON x.a = p.a JOIN u ON x.zz
    = u.yy;

-- a fifth table of a view, which is a view too
CREATE VIEW w AS SELECT x.a FROM t x JOIN t y ON x.a = y.a JOIN t z ON x.a = z.a JOIN t p ON x.a =
    p.a JOIN v ON x.b = v.b;

-- a view under a name that is taken, in a view
CREATE VIEW w AS SELECT t.a FROM t JOIN v t ON t.a = t.c;

-- a view in a view, before unknown columns in ON
CREATE VIEW w AS SELECT t.a FROM t JOIN v ON t.zz = v.yy;

-- a view in a view, before an unknown table
CREATE VIEW w AS SELECT v.b FROM v JOIN nope ON v.b = nope.b;

-- an unknown table in a view, before a view
CREATE VIEW w AS SELECT v.b FROM nope JOIN v ON v.b = nope.b;

-- ON: the left column, before the right one
SELECT t.a FROM t JOIN u ON t.zz = q.a;

-- the left column, before the right one
SELECT t.a FROM t JOIN u ON q.a = t.zz;

-- an equality of two types, before an unknown column
SELECT t.a FROM t JOIN u ON t.a = u.b AND t.zz = u.a;

-- an equality of one source, before an unknown table
SELECT t.a FROM t JOIN u ON t.a = t.a JOIN nope ON t.a = nope.a;

-- an equality of one source, before WHERE
CREATE VIEW w AS SELECT t.a FROM t JOIN u ON u.a = u.a WHERE zz = 1;

-- WHERE: an unknown column that is no condition
SELECT a FROM t WHERE zz;

-- an aggregate that is no condition
SELECT a FROM t WHERE COUNT(*);

-- no condition, before GROUP BY
SELECT a FROM t WHERE a GROUP BY zz;

-- no condition in a view, before GROUP BY
CREATE VIEW w AS SELECT a FROM t WHERE a GROUP BY zz;

-- GROUP BY: 65 keys and an unknown one
SELECT b FROM t GROUP BY b, b, b, b, b, b, b, b, b, b, b, b, b, b, b, b, b, b, b, b, b, b, b, b, b,
    b, b, b, b, b, b, b, b, b, b, b, b, b, b, b, b, b, b, b, b, b, b, b, b, b, b, b, b, b, b, b, b,
    b, b, b, b, b, b, b, b, zz;

-- 65 keys, before an unknown item
SELECT zz FROM t GROUP BY b, b, b, b, b, b, b, b, b, b, b, b, b, b, b, b, b, b, b, b, b, b, b, b, b,
    b, b, b, b, b, b, b, b, b, b, b, b, b, b, b, b, b, b, b, b, b, b, b, b, b, b, b, b, b, b, b, b,
    b, b, b, b, b, b, b, b;

-- 65 keys and an unknown one, in a view
CREATE VIEW w AS SELECT b FROM t GROUP BY b, b, b, b, b, b, b, b, b, b, b, b, b, b, b, b, b, b, b,
    b, b, b, b, b, b, b, b, b, b, b, b, b, b, b, b, b, b, b, b, b, b, b, b, b, b, b, b, b, b, b, b,
    b, b, b, b, b, b, b, b, b, b, b, b, b, b, zz;

-- 65 keys of a view, before equal names and DISTINCT
CREATE VIEW w AS SELECT DISTINCT b, b FROM t GROUP BY b, b, b, b, b, b, b, b, b, b, b, b, b, b, b,
    b, b, b, b, b, b, b, b, b, b, b, b, b, b, b, b, b, b, b, b, b, b, b, b, b, b, b, b, b, b, b, b,
    b, b, b, b, b, b, b, b, b, b, b, b, b, b, b, b, b, b;

-- items: 65 items and an unknown one
SELECT 1, 1, 1, 1, 1, 1, 1, 1, 1, 1, 1, 1, 1, 1, 1, 1, 1, 1, 1, 1, 1, 1, 1, 1, 1, 1, 1, 1, 1, 1, 1,
    1, 1, 1, 1, 1, 1, 1, 1, 1, 1, 1, 1, 1, 1, 1, 1, 1, 1, 1, 1, 1, 1, 1, 1, 1, 1, 1, 1, 1, 1, 1, 1,
    1, 1, zz FROM t;

-- 65 items, before HAVING
SELECT 1, 1, 1, 1, 1, 1, 1, 1, 1, 1, 1, 1, 1, 1, 1, 1, 1, 1, 1, 1, 1, 1, 1, 1, 1, 1, 1, 1, 1, 1, 1,
    1, 1, 1, 1, 1, 1, 1, 1, 1, 1, 1, 1, 1, 1, 1, 1, 1, 1, 1, 1, 1, 1, 1, 1, 1, 1, 1, 1, 1, 1, 1, 1,
    1, 1 FROM t HAVING zz = 1;

-- 65 items of a DISTINCT
SELECT DISTINCT 1, 1, 1, 1, 1, 1, 1, 1, 1, 1, 1, 1, 1, 1, 1, 1, 1, 1, 1, 1, 1, 1, 1, 1, 1, 1, 1, 1,
    1, 1, 1, 1, 1, 1, 1, 1, 1, 1, 1, 1, 1, 1, 1, 1, 1, 1, 1, 1, 1, 1, 1, 1, 1, 1, 1, 1, 1, 1, 1, 1,
    1, 1, 1, 1, 1 FROM t;

-- equal names in a view, before an unknown item
CREATE VIEW w AS SELECT a, a, zz FROM t;

-- equal names and DISTINCT in a view, before an item without a type
CREATE VIEW w AS SELECT DISTINCT a, a, NULL FROM t;

-- equal names and DISTINCT in a view
CREATE VIEW w AS SELECT DISTINCT a, a FROM t;

-- equal names and 65 items in a view
CREATE VIEW w AS SELECT 1, 1, 1, 1, 1, 1, 1, 1, 1, 1, 1, 1, 1, 1, 1, 1, 1, 1, 1, 1, 1, 1, 1, 1, 1,
    1, 1, 1, 1, 1, 1, 1, 1, 1, 1, 1, 1, 1, 1, 1, 1, 1, 1, 1, 1, 1, 1, 1, 1, 1, 1, 1, 1, 1, 1, 1, 1,
    1, 1, 1, 1, 1, 1, 1, 1 AS c1 FROM t;

-- equal names, DISTINCT and 65 items in a view
CREATE VIEW w AS SELECT DISTINCT 1, 1, 1, 1, 1, 1, 1, 1, 1, 1, 1, 1, 1, 1, 1, 1, 1, 1, 1, 1, 1, 1,
    1, 1, 1, 1, 1, 1, 1, 1, 1, 1, 1, 1, 1, 1, 1, 1, 1, 1, 1, 1, 1, 1, 1, 1, 1, 1, 1, 1, 1, 1, 1, 1,
    1, 1, 1, 1, 1, 1, 1, 1, 1, 1, 1 AS c1 FROM t;

-- DISTINCT and 65 items in a view
CREATE VIEW w AS SELECT DISTINCT 1, 1, 1, 1, 1, 1, 1, 1, 1, 1, 1, 1, 1, 1, 1, 1, 1, 1, 1, 1, 1, 1,
    1, 1, 1, 1, 1, 1, 1, 1, 1, 1, 1, 1, 1, 1, 1, 1, 1, 1, 1, 1, 1, 1, 1, 1, 1, 1, 1, 1, 1, 1, 1, 1,
    1, 1, 1, 1, 1, 1, 1, 1, 1, 1, 1 FROM t;

-- 65 items in a view
CREATE VIEW w AS SELECT 1, 1, 1, 1, 1, 1, 1, 1, 1, 1, 1, 1, 1, 1, 1, 1, 1, 1, 1, 1, 1, 1, 1, 1, 1,
    1, 1, 1, 1, 1, 1, 1, 1, 1, 1, 1, 1, 1, 1, 1, 1, 1, 1, 1, 1, 1, 1, 1, 1, 1, 1, 1, 1, 1, 1, 1, 1,
    1, 1, 1, 1, 1, 1, 1, 1 FROM t;

-- DISTINCT in a view, behind WHERE
CREATE VIEW w AS SELECT DISTINCT a FROM t WHERE zz = 1;

-- DISTINCT in a view, before HAVING
CREATE VIEW w AS SELECT DISTINCT b FROM t GROUP BY b HAVING zz = 1;

-- 65 items in a view, before HAVING
CREATE VIEW w AS SELECT 1, 1, 1, 1, 1, 1, 1, 1, 1, 1, 1, 1, 1, 1, 1, 1, 1, 1, 1, 1, 1, 1, 1, 1, 1,
    1, 1, 1, 1, 1, 1, 1, 1, 1, 1, 1, 1, 1, 1, 1, 1, 1, 1, 1, 1, 1, 1, 1, 1, 1, 1, 1, 1, 1, 1, 1, 1,
    1, 1, 1, 1, 1, 1, 1, 1 FROM t GROUP BY b HAVING zz = 1;

-- 65 items in a view, before its HAVING may not stand
CREATE VIEW w AS SELECT 1, 1, 1, 1, 1, 1, 1, 1, 1, 1, 1, 1, 1, 1, 1, 1, 1, 1, 1, 1, 1, 1, 1, 1, 1,
    1, 1, 1, 1, 1, 1, 1, 1, 1, 1, 1, 1, 1, 1, 1, 1, 1, 1, 1, 1, 1, 1, 1, 1, 1, 1, 1, 1, 1, 1, 1, 1,
    1, 1, 1, 1, 1, 1, 1, 1 FROM t HAVING COUNT(*) > 0;

-- HAVING: no condition, before ORDER BY
SELECT b FROM t GROUP BY b HAVING COUNT(*) ORDER BY zz;

-- no condition, in a view
CREATE VIEW w AS SELECT b FROM t GROUP BY b HAVING COUNT(*);

-- a column that is not grouped, in a view
CREATE VIEW w AS SELECT b FROM t GROUP BY b HAVING a = 1;

-- HAVING of a view, before an unknown key of ORDER BY
CREATE VIEW w AS SELECT b FROM t GROUP BY b HAVING COUNT(*) > 0 ORDER BY zz;

-- ORDER BY: 65 keys and an unknown one
SELECT a FROM t ORDER BY a, a, a, a, a, a, a, a, a, a, a, a, a, a, a, a, a, a, a, a, a, a, a, a, a,
    a, a, a, a, a, a, a, a, a, a, a, a, a, a, a, a, a, a, a, a, a, a, a, a, a, a, a, a, a, a, a, a,
    a, a, a, a, a, a, a, a, zz;

-- 65 keys of an order and LIMIT
SELECT a FROM t ORDER BY a, a, a, a, a, a, a, a, a, a, a, a, a, a, a, a, a, a, a, a, a, a, a, a, a,
    a, a, a, a, a, a, a, a, a, a, a, a, a, a, a, a, a, a, a, a, a, a, a, a, a, a, a, a, a, a, a, a,
    a, a, a, a, a, a, a, a LIMIT 0;

-- an unknown key in a view
CREATE VIEW w AS SELECT a FROM t ORDER BY zz;

-- a key of two columns, before an unknown one
SELECT a, a FROM t ORDER BY a, zz;

-- 65 keys of an order and an unknown one, in a view
CREATE VIEW w AS SELECT a FROM t ORDER BY a, a, a, a, a, a, a, a, a, a, a, a, a, a, a, a, a, a, a,
    a, a, a, a, a, a, a, a, a, a, a, a, a, a, a, a, a, a, a, a, a, a, a, a, a, a, a, a, a, a, a, a,
    a, a, a, a, a, a, a, a, a, a, a, a, a, a, 2;

-- 65 keys of an order in a view
CREATE VIEW w AS SELECT a FROM t ORDER BY a, a, a, a, a, a, a, a, a, a, a, a, a, a, a, a, a, a, a,
    a, a, a, a, a, a, a, a, a, a, a, a, a, a, a, a, a, a, a, a, a, a, a, a, a, a, a, a, a, a, a, a,
    a, a, a, a, a, a, a, a, a, a, a, a, a, a;

-- 65 keys of an order in a view, by their places
CREATE VIEW w AS SELECT a FROM t ORDER BY 1 DESC, 1 DESC, 1 DESC, 1 DESC, 1 DESC, 1 DESC, 1 DESC, 1
    DESC, 1 DESC, 1 DESC, 1 DESC, 1 DESC, 1 DESC, 1 DESC, 1 DESC, 1 DESC, 1 DESC, 1 DESC, 1 DESC, 1
    DESC, 1 DESC, 1 DESC, 1 DESC, 1 DESC, 1 DESC, 1 DESC, 1 DESC, 1 DESC, 1 DESC, 1 DESC, 1 DESC, 1
    DESC, 1 DESC, 1 DESC, 1 DESC, 1 DESC, 1 DESC, 1 DESC, 1 DESC, 1 DESC, 1 DESC, 1 DESC, 1 DESC, 1
    DESC, 1 DESC, 1 DESC, 1 DESC, 1 DESC, 1 DESC, 1 DESC, 1 DESC, 1 DESC, 1 DESC, 1 DESC, 1 DESC, 1
    DESC, 1 DESC, 1 DESC, 1 DESC, 1 DESC, 1 DESC, 1 DESC, 1 DESC, 1 DESC, 1 DESC LIMIT 1;

-- an unknown key in a view with LIMIT
CREATE VIEW w AS SELECT a FROM t ORDER BY a, 0 LIMIT 1;

-- LIMIT of a view, behind an unknown item
CREATE VIEW w AS SELECT zz FROM t LIMIT 1;

-- LIMIT of a view, behind 65 items
CREATE VIEW w AS SELECT 1, 1, 1, 1, 1, 1, 1, 1, 1, 1, 1, 1, 1, 1, 1, 1, 1, 1, 1, 1, 1, 1, 1, 1, 1,
    1, 1, 1, 1, 1, 1, 1, 1, 1, 1, 1, 1, 1, 1, 1, 1, 1, 1, 1, 1, 1, 1, 1, 1, 1, 1, 1, 1, 1, 1, 1, 1,
    1, 1, 1, 1, 1, 1, 1, 1 FROM t LIMIT 1;

-- LIMIT of a view
CREATE VIEW w AS SELECT a FROM t LIMIT 1;

-- a name that is taken, before all of them
CREATE VIEW u AS SELECT DISTINCT zz FROM v ORDER BY yy LIMIT 1;

-- nothing has changed
SELECT a, b FROM t;
SELECT b, c, s FROM v;
SELECT a FROM u;
