-- The first fault of CREATE VIEW, and what a view refuses
CREATE TABLE t(a INTEGER, b INTEGER);
INSERT INTO t VALUES (1, 2);
CREATE VIEW v AS SELECT a, COUNT(*) AS n FROM t GROUP BY a;

-- the name of a table
CREATE VIEW t AS SELECT zz FROM u GROUP BY a;

-- the name of a view
CREATE VIEW v AS SELECT a FROM t GROUP BY a;

-- a table by the name of a view
CREATE TABLE v(a INTEGER);

-- a view on itself
CREATE VIEW w AS SELECT a FROM w GROUP BY a;

-- a view on a view
CREATE VIEW w AS SELECT a FROM v GROUP BY zz;

-- a number of 128 bits in WHERE
CREATE VIEW w AS SELECT zz FROM t WHERE b = 170141183460469231731687303715884105728 GROUP BY y;

-- WHERE before GROUP BY
CREATE VIEW w AS SELECT b FROM t WHERE y = 1 GROUP BY z;

-- GROUP BY before the items
CREATE VIEW w AS SELECT b FROM t GROUP BY z;

-- a column that is not grouped before an unknown one
CREATE VIEW w AS SELECT b, zz FROM t GROUP BY a;

-- an unknown column before one that is not grouped
CREATE VIEW w AS SELECT zz, b FROM t GROUP BY a;

-- an unknown column in SUM
CREATE VIEW w AS SELECT a, SUM(zz), b FROM t GROUP BY a;

-- a name of its own twice
CREATE VIEW w AS SELECT a, COUNT(*) AS a FROM t GROUP BY a;

-- a name that a place gives
CREATE VIEW w AS SELECT COUNT(*) AS c2, COUNT(*) FROM t GROUP BY a;

-- a key twice, under two names
CREATE VIEW w AS SELECT a, a AS b, SUM(b) FROM t GROUP BY a, a;
DROP VIEW w;

-- no GROUP BY
CREATE VIEW w AS SELECT a FROM t;
DROP VIEW w;

-- SUM of a star
CREATE VIEW w AS SELECT SUM(*) FROM t GROUP BY a;

-- DELETE from a view
DELETE FROM v WHERE zz = 1;

-- INSERT into a view
INSERT INTO v VALUES (1);

-- DROP TABLE of a view
DROP TABLE v;

-- DROP VIEW of a table
DROP VIEW t;

-- DROP TABLE of a table in use
DROP TABLE t;

-- a column that a view does not have
SELECT b FROM v;

-- the view is as it was
SELECT a, n FROM v;
