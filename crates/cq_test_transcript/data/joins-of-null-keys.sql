-- A NULL key joins with nothing.
CREATE TABLE t(k INTEGER, a INTEGER);
INSERT INTO t VALUES (1, 10), (1, 11), (NULL, 12), (2, 13);
CREATE TABLE u(k INTEGER, b INTEGER);
INSERT INTO u VALUES (1, 20), (1, 21), (NULL, 22), (3, 23);
CREATE TABLE e(k INTEGER, a INTEGER);
-- on the keys
SELECT a, b FROM t JOIN u ON t.k = u.k;
-- with WHERE
SELECT a, b FROM t JOIN u ON t.k = u.k WHERE b > 20;
-- on other columns
SELECT a, b FROM t JOIN u ON t.a = u.k;
-- an empty table on the right
SELECT t.a, e.a FROM t JOIN e ON t.k = e.k;
-- an empty table on the left
SELECT e.a, t.a FROM e JOIN t ON e.k = t.k;
-- with itself
SELECT x.a, y.a FROM t x JOIN t y ON x.k = y.k;
-- no such table
SELECT a, b FROM t JOIN nope ON t.k = nope.k;
