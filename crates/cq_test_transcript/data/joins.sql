-- Sources that are joined; NULL is equal to nothing
CREATE TABLE t(k INTEGER, a TEXT);
CREATE TABLE u(k INTEGER, b INTEGER);
CREATE TABLE w(b INTEGER, d DATE);
CREATE TABLE e(k INTEGER);
INSERT INTO t VALUES (1, 'x'), (1, 'y'), (2, 'z'), (NULL, 'n');
INSERT INTO u VALUES (1, 10), (1, 10), (3, 30), (NULL, 40);
INSERT INTO w VALUES (10, DATE '2024-01-02'), (30, NULL);
-- each pair of rows with equal keys
SELECT t.k, a, b FROM t JOIN u ON t.k = u.k;
-- INNER, and the sides of the equality the other way round
SELECT t.k, a, b FROM t INNER JOIN u ON u.k = t.k WHERE a = 'y';
-- three sources
SELECT a, d FROM t JOIN u ON t.k = u.k JOIN w ON w.b = u.b WHERE a <> 'x';
-- two equalities, and a table joined with itself
SELECT x.a, y.a AS other FROM t x JOIN t y ON x.k = y.k AND x.a = y.a;
SELECT x.a, y.a AS other FROM t AS x JOIN t AS y ON x.k = y.k WHERE x.a < y.a;
-- a table without rows
SELECT t.k FROM t JOIN e ON t.k = e.k;
SELECT t.k FROM e JOIN t ON t.k = e.k;
-- a view beside a table, and beside itself
CREATE VIEW v AS SELECT k, COUNT(*) AS n FROM t GROUP BY k;
SELECT v.k, n, b FROM v JOIN u ON v.k = u.k;
SELECT x.k, y.n FROM v x JOIN v y ON x.n = y.k;
-- a view follows a write, and its joins with it
INSERT INTO t VALUES (3, 'q');
SELECT v.k, n, b FROM v JOIN u ON v.k = u.k WHERE b > 10;
-- ORDER BY and LIMIT
SELECT b, a FROM t JOIN u ON t.k = u.k WHERE b > 5 ORDER BY a DESC, b LIMIT 2;
-- arithmetic over columns of two sources
SELECT t.k * b AS p FROM t JOIN u ON t.k = u.k WHERE a = 'x';
SELECT t.k * b * b FROM t JOIN u ON t.k = u.k;
-- a column that two sources have
SELECT k FROM t JOIN u ON t.k = u.k;
-- in ON, before a source that is not there
SELECT a FROM t JOIN u ON k = u.k JOIN nope ON t.k = nope.k;
-- in WHERE, before an unknown item
SELECT zz FROM t JOIN u ON t.k = u.k WHERE k = 1;
-- ON names a source that comes later
SELECT a FROM t JOIN u ON t.k = w.b JOIN w ON w.b = u.b;
-- a bare name in ON is no column of a later source
SELECT a FROM t JOIN u ON t.k = d JOIN w ON w.b = u.b;
-- a table behind an alias is not known by its own name
SELECT a FROM t x JOIN u ON t.k = u.k;
-- a column that its source has not
SELECT a FROM t JOIN u ON t.b = u.k;
-- the second source is not there
SELECT zz FROM t JOIN nope ON t.k = nope.k;
-- two sources of one name, before their columns
SELECT a FROM t JOIN t ON t.zz = t.k;
SELECT a FROM t x JOIN u x ON zz = x.k;
-- columns of two types
SELECT a FROM t JOIN u ON t.a = u.k;
-- both columns of the new source, of the first, and of earlier ones
SELECT t.k FROM t JOIN u ON u.k = u.b;
SELECT t.k FROM t JOIN u ON t.k = t.k;
SELECT a FROM t JOIN u ON t.k = u.k JOIN w ON t.k = u.b;
-- the first equality that is refused decides
SELECT a FROM t JOIN u ON t.k = u.k AND t.a = u.b AND t.k = u.zz;
-- four base tables, and a fifth before its equality
SELECT x.k FROM e x JOIN e y ON x.k = y.k JOIN e z ON y.k = z.k JOIN e q ON z.k = q.k;
SELECT x.k FROM e x JOIN e y ON x.k = y.k JOIN e z ON y.k = z.k JOIN e q ON z.k = q.k
    JOIN e r ON zz = q.k;
-- a taken name comes before the fifth
SELECT x.k FROM e x JOIN e y ON x.k = y.k JOIN e z ON y.k = z.k JOIN e q ON z.k = q.k
    JOIN e x ON x.k = q.k;
-- a view counts the table that it reads, each time that it is named
SELECT x.k FROM v x JOIN v y ON x.k = y.k JOIN v z ON y.k = z.k JOIN t q ON z.k = q.k
    JOIN u r ON r.k = q.k;
-- a total of a joined view that cannot be shown
CREATE TABLE big(k INTEGER, a INTEGER);
CREATE VIEW s AS SELECT k, SUM(a * a) AS s FROM big GROUP BY k;
INSERT INTO big VALUES (5, -9223372036854775808), (5, -9223372036854775808);
SELECT t.k FROM t JOIN s ON t.k = s.k LIMIT 0;
DELETE FROM big;
SELECT t.k FROM t JOIN s ON t.k = s.k LIMIT 0;
-- no joins: a list of sources, and a source without ON
SELECT a FROM t, u;
SELECT a FROM t JOIN u;
SELECT a FROM t JOIN u ON t.k < u.k;
SELECT a FROM t LEFT JOIN u ON t.k = u.k;
