-- A view in FROM stands for the rows of its query. The view keys has a group for each id and does not show it, so it
-- has equal rows.
CREATE TABLE t(k INTEGER, a INTEGER, id INTEGER);
INSERT INTO t VALUES (1, 1, 1), (1, 2, 2), (2, 3, 3), (NULL, 4, 4), (1, 2, 5);
CREATE VIEW counts AS SELECT k, COUNT(*) AS n FROM t GROUP BY k;
CREATE VIEW keys AS SELECT k FROM t WHERE a > 1 GROUP BY k, id;
-- a view alone
SELECT k, n FROM counts;
-- a view with equal rows
SELECT k FROM keys;
-- a table with its view
SELECT a, n FROM t JOIN counts ON t.k = counts.k;
-- a view with its table
SELECT counts.k, t.k FROM counts JOIN t ON counts.n = t.a;
-- two views
SELECT keys.k, n FROM keys JOIN counts ON keys.k = counts.k;
-- a view with itself
SELECT x.k FROM keys x JOIN keys y ON x.k = y.k;
-- groups of groups
SELECT SUM(n), MAX(n) FROM counts;
-- no such view
SELECT k, n FROM nope;
-- no view stands for anything in a view
CREATE VIEW w AS SELECT k, COUNT(*) FROM counts GROUP BY k;
SELECT k, c2 FROM w;
