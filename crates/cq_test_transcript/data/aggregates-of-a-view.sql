-- An aggregate has one argument and stands alone; the table is not there

-- COUNT and SUM of expressions
CREATE VIEW v AS SELECT COUNT(a), SUM(a * b) FROM t GROUP BY a;

-- names of items
CREATE VIEW v AS SELECT t.a, COUNT(*) AS n, COUNT(-a) AS m, SUM(t.b - 2 * (c + d)) AS s FROM t
    GROUP BY a;

-- conditions as items
CREATE VIEW v AS SELECT a = 1 AND NOT b, (a) FROM t GROUP BY a;

-- conditions as arguments
CREATE VIEW v AS SELECT COUNT((a = 1)), SUM((a OR b)) FROM t GROUP BY a;

-- constants as arguments
CREATE VIEW v AS SELECT COUNT(NULL), COUNT('x'), SUM(EXTRACT(DAY FROM d)) FROM t GROUP BY a;

-- a comparison without parentheses
CREATE VIEW v AS SELECT COUNT(a = 1) FROM t GROUP BY a;

-- AND without parentheses
CREATE VIEW v AS SELECT SUM(a AND b) FROM t GROUP BY a;

-- SUM of a star
CREATE VIEW v AS SELECT SUM(*) FROM t GROUP BY a;

-- COUNT of nothing
CREATE VIEW v AS SELECT COUNT() FROM t GROUP BY a;

-- SUM of nothing
CREATE VIEW v AS SELECT SUM() FROM t GROUP BY a;

-- a star and a number
CREATE VIEW v AS SELECT COUNT(* + 1) FROM t GROUP BY a;

-- a column and a star
CREATE VIEW v AS SELECT COUNT(a *) FROM t GROUP BY a;

-- two arguments
CREATE VIEW v AS SELECT COUNT(a, b) FROM t GROUP BY a;

-- a name inside
CREATE VIEW v AS SELECT COUNT(a AS b) FROM t GROUP BY a;

-- SUM of COUNT, which is read
CREATE VIEW v AS SELECT SUM(COUNT(*)) FROM t GROUP BY a;

-- a sum of a SUM
CREATE VIEW v AS SELECT SUM(a) + 1 FROM t GROUP BY a;

-- a SUM behind a sum
CREATE VIEW v AS SELECT 1 + SUM(a) FROM t GROUP BY a;

-- a sign before COUNT
CREATE VIEW v AS SELECT -COUNT(*) FROM t GROUP BY a;

-- SUM in parentheses
CREATE VIEW v AS SELECT (SUM(a)) FROM t GROUP BY a;

-- COUNT without parentheses, of a star
CREATE VIEW v AS SELECT COUNT * FROM t GROUP BY a;

-- COUNT without parentheses
CREATE VIEW v AS SELECT COUNT a FROM t GROUP BY a;

-- COUNT that is not closed
CREATE VIEW v AS SELECT COUNT(* FROM t GROUP BY a;

-- SUM that is not closed
CREATE VIEW v AS SELECT SUM(a FROM t GROUP BY a;

-- SUM closed twice
CREATE VIEW v AS SELECT SUM(a)) FROM t GROUP BY a;

-- SUM alone
CREATE VIEW v AS SELECT SUM FROM t GROUP BY a;
