-- Forms of CREATE VIEW, kept while their tables change, and what a view may not have
CREATE TABLE t(k INTEGER, a INTEGER);
CREATE TABLE u(k INTEGER, b TEXT);
CREATE VIEW v AS SELECT k, COUNT(*) AS n FROM t GROUP BY k;
INSERT INTO t VALUES (1, 5), (1, 6);
-- MIN, and MAX
CREATE VIEW least AS SELECT k, MIN(a) AS m FROM t GROUP BY k;
CREATE VIEW greatest AS SELECT k, MAX(a) AS m FROM t GROUP BY k;
-- an aggregate inside an expression
CREATE VIEW more AS SELECT k, COUNT(*) + 1 AS n FROM t GROUP BY k;
-- no groups
CREATE VIEW alone AS SELECT k, a FROM t;
-- one group of all rows
CREATE VIEW one AS SELECT COUNT(*) AS n FROM t;
-- two tables
CREATE VIEW both AS SELECT t.k, COUNT(*) AS n FROM t JOIN u ON t.k = u.k GROUP BY t.k;
-- a key that both tables have
CREATE VIEW w AS SELECT t.k, COUNT(*) AS n FROM t JOIN u ON t.k = u.k GROUP BY k;
-- HAVING
CREATE VIEW w AS SELECT k, COUNT(*) AS n FROM t GROUP BY k HAVING k = 1;
-- DISTINCT
CREATE VIEW w AS SELECT DISTINCT k FROM t GROUP BY k;
-- ORDER BY
CREATE VIEW w AS SELECT k FROM t GROUP BY k ORDER BY k;
-- LIMIT
CREATE VIEW w AS SELECT k FROM t GROUP BY k LIMIT 1;
-- a name that is taken, a table that is not there, and a view
CREATE VIEW t AS SELECT k, MIN(a) AS m FROM t GROUP BY k;
CREATE VIEW w AS SELECT k, a FROM nope;
CREATE VIEW w AS SELECT k, a FROM v;
-- nothing of it was done
SELECT k, n FROM w;
-- writes are seen in all
INSERT INTO t VALUES (2, 9), (1, 4);
INSERT INTO u VALUES (1, 'x'), (2, 'y'), (2, 'z');
DELETE FROM t WHERE a = 5;
SELECT k, m FROM least;
SELECT k, m FROM greatest;
SELECT k, n FROM more;
SELECT k, a FROM alone;
SELECT n FROM one;
SELECT k, n FROM both;
-- the second table is used too
DROP TABLE u;
-- the last rows leave
DELETE FROM t WHERE k >= 1;
SELECT k, m FROM least;
SELECT k, a FROM alone;
SELECT n FROM one;
SELECT k, n FROM both;
