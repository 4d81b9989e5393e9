CREATE TABLE t(g TEXT, a INTEGER);
CREATE VIEW v AS SELECT g, COUNT(*) AS n FROM t GROUP BY g;

-- a text compared with a number
SELECT a FROM t WHERE g = 1;

-- a number of 128 bits before a type
SELECT zz FROM t WHERE g = 170141183460469231731687303715884105728;

-- WHERE before the items
SELECT zz FROM t WHERE g = 1;

-- WHERE before the items, in a view
SELECT zz FROM v WHERE g = 1;

-- in DELETE
DELETE FROM t WHERE g <> 1;

-- SUM of a text before an unknown column
CREATE VIEW w AS SELECT SUM(g), zz FROM t GROUP BY a;

-- an unknown column before SUM of a text
CREATE VIEW w AS SELECT zz, SUM(g) FROM t GROUP BY a;

-- WHERE before GROUP BY
CREATE VIEW w AS SELECT SUM(a) FROM t WHERE g > 0 GROUP BY zz;
