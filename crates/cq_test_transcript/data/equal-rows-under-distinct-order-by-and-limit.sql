-- Rows that occur twice, and NULLs, under ORDER BY, LIMIT and DISTINCT.
CREATE TABLE t(a INTEGER, b INTEGER);
INSERT INTO t VALUES (2, 5), (NULL, 1), (1, NULL), (2, 4), (NULL, 1), (-3, 1), (2, 5);
-- by a
SELECT DISTINCT a FROM t ORDER BY a;
-- by a DESC
SELECT DISTINCT a FROM t ORDER BY a DESC;
-- by b, and ties by all columns
SELECT a, b FROM t ORDER BY b;
-- by b DESC, and ties by all columns
SELECT a, b FROM t ORDER BY b DESC;
-- by a DESC, b
SELECT DISTINCT a, b FROM t ORDER BY a DESC, b;
-- by b, a DESC
SELECT DISTINCT a, b FROM t ORDER BY b, a DESC;
-- LIMIT 0
SELECT a FROM t LIMIT 0;
-- LIMIT 1
SELECT a FROM t LIMIT 1;
-- LIMIT 1 from the end
SELECT a FROM t ORDER BY a DESC LIMIT 1;
-- LIMIT: one of two equal rows
SELECT a FROM t LIMIT 6;
-- LIMIT: as many as there are
SELECT DISTINCT a FROM t LIMIT 4;
-- LIMIT: one more than there are
SELECT DISTINCT a FROM t LIMIT 5;
-- LIMIT: the greatest
SELECT DISTINCT a FROM t LIMIT 340282366920938463463374607431768211455;
-- texts and days have their order
CREATE TABLE u(b TEXT, d DATE);
INSERT INTO u VALUES ('b', DATE '1970-01-01'), ('ab', DATE '1969-12-31'), ('', DATE '2024-02-29'),
    (NULL, DATE '0001-01-01'), ('ä', NULL), ('B', DATE '9999-12-31'), ('a', DATE '1970-01-01');
-- texts by their bytes
SELECT b FROM u;
-- days by the calendar, latest first
SELECT d FROM u ORDER BY d DESC;
-- equal rows stay
SELECT a FROM t;
-- DISTINCT of one column
SELECT DISTINCT a FROM t;
-- DISTINCT of both columns
SELECT DISTINCT a, b FROM t;
-- DISTINCT after the items
SELECT DISTINCT a * 0 FROM t;
-- DISTINCT of one constant
SELECT DISTINCT NULL FROM t;
-- DISTINCT before LIMIT
SELECT DISTINCT a FROM t LIMIT 3;
