-- Without GROUP BY there is one group, also over no rows.
CREATE TABLE t(k INTEGER, a INTEGER);
INSERT INTO t VALUES (NULL, 1), (1, 3), (NULL, 2), (1, NULL), (2, NULL), (1, 3);
-- a table without rows, and one of NULLs alone
CREATE TABLE e(k INTEGER, a INTEGER);
CREATE TABLE u(b INTEGER);
INSERT INTO u VALUES (NULL), (NULL);
-- all rows of t
SELECT COUNT(*), COUNT(a), SUM(a), MIN(a), MAX(a) FROM t;
-- an empty table
SELECT COUNT(*), COUNT(a), SUM(a), MIN(a), MAX(a) FROM e;
-- WHERE keeps nothing
SELECT COUNT(*), COUNT(a), SUM(a), MIN(a), MAX(a) FROM t WHERE a > 9;
-- an empty join
SELECT COUNT(*), COUNT(t.a), SUM(t.a), MIN(t.a), MAX(t.a) FROM t JOIN e ON t.k = e.k;
-- an empty table with GROUP BY
SELECT k, COUNT(*), COUNT(a), SUM(a), MIN(a), MAX(a) FROM e GROUP BY k;
-- HAVING COUNT(*) = 0
SELECT COUNT(*), COUNT(a), SUM(a), MIN(a), MAX(a) FROM e HAVING COUNT(*) = 0;
-- HAVING COUNT(*) > 0
SELECT COUNT(*), COUNT(a), SUM(a), MIN(a), MAX(a) FROM e HAVING COUNT(*) > 0;
-- HAVING SUM(a) = 0, Unknown
SELECT COUNT(*), COUNT(a), SUM(a), MIN(a), MAX(a) FROM e HAVING SUM(a) = 0;
-- HAVING with GROUP BY
SELECT k, COUNT(*), COUNT(a), SUM(a), MIN(a), MAX(a) FROM e GROUP BY k HAVING COUNT(*) = 0;
-- no aggregate and no GROUP BY, but HAVING
SELECT 7 FROM e HAVING 1 = 1;
-- NULLs alone
SELECT COUNT(*), COUNT(b), SUM(b), MIN(b), MAX(b) FROM u;
