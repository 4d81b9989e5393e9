-- Each COPY is taken into the views of its table, and a refused one is not
CREATE TABLE t(k TEXT, a INTEGER, d DATE);
CREATE TABLE u(k TEXT, a INTEGER);
CREATE VIEW v AS SELECT k, COUNT(*) AS n, COUNT(d) AS dated, SUM(a * a) AS s FROM t GROUP BY k;
CREATE VIEW years AS SELECT EXTRACT(YEAR FROM d) AS y, COUNT(*) AS n FROM t WHERE a > 1 GROUP BY d;
CREATE VIEW w AS SELECT k, COUNT(*) AS n FROM u GROUP BY k;
COPY t FROM 'first.csv';
SELECT k, n, dated, s FROM v;
SELECT y, n FROM years;

-- the last record of the file is refused
COPY t FROM 'last-is-bad.csv';
SELECT k, n, dated, s FROM v;
SELECT y, n FROM years;

-- groups that are there, and a new one
COPY t FROM 'second.csv';
SELECT k, n, dated, s FROM v;
SELECT y, n FROM years;

-- a group leaves with its last row, and comes back
DELETE FROM t WHERE k = 'jam';
SELECT k, n, dated, s FROM v;
COPY t FROM 'first.csv';
SELECT k, n, dated, s FROM v;

-- the views of another table stay
SELECT k, n FROM w;
COPY u FROM 'other.csv';
SELECT k, n FROM w;
SELECT SUM(n) AS n FROM v;
