-- The first fault of the items of a view
CREATE TABLE t(a INTEGER, b INTEGER, c TEXT);

-- a column that is not grouped before an unknown one
CREATE VIEW v AS SELECT a + b + zz FROM t GROUP BY a, c;

-- an unknown column before one that is not grouped
CREATE VIEW v AS SELECT a + zz + b FROM t GROUP BY a, c;

-- a table that is not read
CREATE VIEW v AS SELECT q.b FROM t GROUP BY a, c;

-- a type before a column that is not grouped
CREATE VIEW v AS SELECT a + 'x' + b FROM t GROUP BY a, c;

-- a column that is not grouped before a type
CREATE VIEW v AS SELECT a + b + 'x' FROM t GROUP BY a, c;

-- a product of three keys
CREATE VIEW v AS SELECT a * a * a, b FROM t GROUP BY a, c;

-- a product of three factors
CREATE VIEW v AS SELECT a * a * 2, b FROM t GROUP BY a, c;

-- a product of two keys
CREATE VIEW v AS SELECT a * a, b FROM t GROUP BY a, c;

-- a condition is no item
CREATE VIEW v AS SELECT a = 1, b FROM t GROUP BY a, c;

-- NULL is no item
CREATE VIEW v AS SELECT NULL, b FROM t GROUP BY a, c;

-- NULL in parentheses
CREATE VIEW v AS SELECT (NULL), b FROM t GROUP BY a, c;

-- NULL in arithmetic has a type; a day that is none
CREATE VIEW v AS SELECT NULL + 1, -NULL, DATE '2024-02-30' FROM t GROUP BY a, c;

-- SUM of a text
CREATE VIEW v AS SELECT SUM(c), b FROM t GROUP BY a, c;

-- an unknown column in SUM
CREATE VIEW v AS SELECT SUM(c + zz), b FROM t GROUP BY a, c;

-- SUM of a condition
CREATE VIEW v AS SELECT SUM((a = 1)), b FROM t GROUP BY a, c;

-- COUNT of a condition
CREATE VIEW v AS SELECT COUNT((a = 1)), b FROM t GROUP BY a, c;

-- SUM of a product that is too wide
CREATE VIEW v AS SELECT SUM(b * b * b), zz FROM t GROUP BY a, c;

-- a name that an item gives itself
CREATE VIEW v AS SELECT COUNT(b), SUM(b * b) AS a, a FROM t GROUP BY a, c;

-- a name that a place gives
CREATE VIEW v AS SELECT a AS c2, COUNT(b) FROM t GROUP BY a, c;

-- a comparison without parentheses
CREATE VIEW v AS SELECT SUM(a = 1) FROM t GROUP BY a, c;

-- a sum of a SUM
CREATE VIEW v AS SELECT SUM(a) + 1 FROM t GROUP BY a, c;

-- SUM of COUNT
CREATE VIEW v AS SELECT SUM(COUNT(*)) FROM t GROUP BY a, c;

-- COUNT of nothing
CREATE VIEW v AS SELECT COUNT() FROM t GROUP BY a, c;

-- each kind of item
CREATE VIEW v AS SELECT SUM(b), COUNT(b), COUNT(*), t.a + 1, NULL + 1, c FROM t GROUP BY a, c;
DROP VIEW v;

-- COUNT and SUM of NULL
CREATE VIEW v AS SELECT COUNT(c), COUNT(NULL), SUM(NULL), a * a FROM t GROUP BY a, c;
DROP VIEW v;
