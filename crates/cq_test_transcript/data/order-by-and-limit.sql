CREATE TABLE t(g TEXT, a INTEGER, d DATE);
INSERT INTO t VALUES ('x', 2, DATE '2020-05-01'), ('y', NULL, DATE '2020-01-01'), ('x', 10, NULL), ('z', 2, DATE '2020-05-01'), (NULL, -1, DATE '2019-12-31'), ('x', 2, DATE '2020-05-01'), ('x', 2, NULL);
-- from the least value on, NULL last; what is equal there is sorted by all columns
SELECT g, a FROM t ORDER BY a;
-- from the greatest value on, NULL first; all columns still from the least
SELECT g, a FROM t ORDER BY a DESC;
-- by the name behind AS, then by another key
SELECT g, a * a AS square FROM t ORDER BY square, g DESC;
-- by the places of columns
SELECT d, g FROM t ORDER BY 2 DESC, 1 ASC;
-- by a column that is called by its place
SELECT g, a + 1 FROM t WHERE g = 'x' ORDER BY c2 DESC;
-- one column twice: the first key decides
SELECT a FROM t WHERE a > 0 ORDER BY a DESC, 1 ASC;
-- a column of a source
SELECT s.a FROM t AS s WHERE s.g = 'x' ORDER BY a DESC LIMIT 2;
-- LIMIT keeps the first rows of the list
SELECT g, a FROM t ORDER BY a DESC LIMIT 4;
-- without ORDER BY the list is that of all columns
SELECT a, g FROM t LIMIT 3;
-- no rows
SELECT g, a FROM t ORDER BY a LIMIT 0;
-- more than there are, and more than can be counted
SELECT a FROM t WHERE a <> 2 LIMIT 2;
SELECT a FROM t WHERE a <> 2 LIMIT 3;
SELECT a FROM t WHERE a <> 2 ORDER BY a DESC LIMIT 18446744073709551617;
SELECT a FROM t WHERE a <> 2 LIMIT 340282366920938463463374607431768211457;
-- no output column of the name, though the table has one
SELECT g FROM t ORDER BY a;
SELECT a AS b FROM t ORDER BY a;
SELECT a FROM t ORDER BY t;
-- no output column at the place
SELECT g, a FROM t ORDER BY 0;
SELECT g, a FROM t ORDER BY 3;
SELECT g, a FROM t ORDER BY 18446744073709551617;
SELECT g, a FROM t ORDER BY 340282366920938463463374607431768211457;
-- two output columns of the name; by their places they are told apart
SELECT a, a FROM t ORDER BY a;
SELECT g, a AS k, d AS k FROM t ORDER BY k DESC;
SELECT g AS c2, a + 1 FROM t ORDER BY c2;
SELECT a, a FROM t ORDER BY 2 LIMIT 1;
-- 64 keys, and 65
SELECT a FROM t ORDER BY 1, 1, 1, 1, 1, 1, 1, 1, 1, 1, 1, 1, 1, 1, 1, 1, 1, 1, 1, 1, 1, 1, 1, 1, 1, 1, 1, 1, 1, 1, 1, 1, 1, 1, 1, 1, 1, 1, 1, 1, 1, 1, 1, 1, 1, 1, 1, 1, 1, 1, 1, 1, 1, 1, 1, 1, 1, 1, 1, 1, 1, 1, 1, 1 LIMIT 1;
SELECT a FROM t ORDER BY 1, 1, 1, 1, 1, 1, 1, 1, 1, 1, 1, 1, 1, 1, 1, 1, 1, 1, 1, 1, 1, 1, 1, 1, 1, 1, 1, 1, 1, 1, 1, 1, 1, 1, 1, 1, 1, 1, 1, 1, 1, 1, 1, 1, 1, 1, 1, 1, 1, 1, 1, 1, 1, 1, 1, 1, 1, 1, 1, 1, 1, 1, 1, 1, 1 LIMIT 1;
-- each key comes before their number, and the first key decides
SELECT a FROM t ORDER BY 1, 1, 1, 1, 1, 1, 1, 1, 1, 1, 1, 1, 1, 1, 1, 1, 1, 1, 1, 1, 1, 1, 1, 1, 1, 1, 1, 1, 1, 1, 1, 1, 1, 1, 1, 1, 1, 1, 1, 1, 1, 1, 1, 1, 1, 1, 1, 1, 1, 1, 1, 1, 1, 1, 1, 1, 1, 1, 1, 1, 1, 1, 1, 1, zz;
SELECT a, a FROM t ORDER BY a, zz;
SELECT a, a FROM t ORDER BY zz, a;
-- the source, WHERE, the items and their number come before ORDER BY
SELECT a FROM nope ORDER BY 0;
SELECT a FROM t WHERE a = 'x' ORDER BY zz;
SELECT a + g FROM t ORDER BY zz;
SELECT a, a, a, a, a, a, a, a, a, a, a, a, a, a, a, a, a, a, a, a, a, a, a, a, a, a, a, a, a, a, a, a, a, a, a, a, a, a, a, a, a, a, a, a, a, a, a, a, a, a, a, a, a, a, a, a, a, a, a, a, a, a, a, a, a FROM t ORDER BY 0;
-- a key is a name or a place alone
SELECT a FROM t ORDER BY t.a;
SELECT a FROM t ORDER BY a + 1;
SELECT a FROM t ORDER BY;
SELECT a FROM t LIMIT -1;
SELECT a FROM t LIMIT 1 ORDER BY a;
-- the columns of a view
CREATE VIEW v AS SELECT g, COUNT(*) AS n, SUM(a) AS total FROM t GROUP BY g;
SELECT g, n, total FROM v ORDER BY n DESC, total DESC LIMIT 3;
SELECT total FROM v ORDER BY total;
SELECT v.g FROM v ORDER BY g DESC;
SELECT n FROM v ORDER BY total;
-- a total that cannot be shown refuses, also where no row is asked for
CREATE TABLE b(k INTEGER, n INTEGER);
CREATE VIEW w AS SELECT k, SUM(n * n) AS total FROM b GROUP BY k;
INSERT INTO b VALUES (1, -9223372036854775808), (1, -9223372036854775808);
SELECT k FROM w ORDER BY k LIMIT 0;
SELECT k FROM w ORDER BY zz LIMIT 0;
