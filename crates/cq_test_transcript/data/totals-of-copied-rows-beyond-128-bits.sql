-- A COPY is not refused for a total of a view that cannot be shown
CREATE TABLE t(k INTEGER, a INTEGER, b INTEGER);
CREATE VIEW v AS SELECT k, SUM(a * b) AS s FROM t GROUP BY k;
COPY t FROM 'squares.csv';
SELECT k, s FROM v;
SELECT COUNT(*) AS n FROM t;

-- 2^127 - 2^63 * (2^63 - 1)
COPY t FROM 'back.csv';
SELECT k, s FROM v;
