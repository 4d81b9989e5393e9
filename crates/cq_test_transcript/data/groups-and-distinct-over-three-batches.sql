-- 3,000 rows whose keys come back in each batch, NULL among them
CREATE TABLE t(a INTEGER, c TEXT, x INTEGER);
COPY t FROM 'rows.csv';
-- by a text
SELECT c, COUNT(*) AS n, COUNT(x) AS k, SUM(x) AS s, MIN(x), MAX(x) FROM t GROUP BY c;
-- by a number, the largest totals
SELECT a, SUM(x) AS s, COUNT(*) AS n FROM t GROUP BY a ORDER BY s DESC, a LIMIT 4;
-- by both, where HAVING keeps few
SELECT c, a, COUNT(*) AS n, MAX(x) AS m FROM t GROUP BY c, a HAVING COUNT(*) > 15 AND MAX(x) > 495;
-- the texts of a group
SELECT a, MIN(c), MAX(c), COUNT(c) AS n FROM t WHERE a < 3 OR a IS NULL GROUP BY a;
-- one group of all rows, and of none
SELECT COUNT(*) AS n, SUM(x * x) AS s, MIN(c) FROM t;
SELECT COUNT(*) AS n, SUM(x) AS s, MAX(c) FROM t WHERE x > 500;
SELECT c, COUNT(*) AS n FROM t WHERE x > 500 GROUP BY c;
-- DISTINCT
SELECT DISTINCT c FROM t;
SELECT DISTINCT a, c FROM t ORDER BY a DESC, c LIMIT 5;
SELECT DISTINCT x - x AS zero FROM t;
-- DISTINCT behind groups
SELECT DISTINCT COUNT(*) AS n FROM t GROUP BY a;
