-- A file is read anew by each COPY, and its rows come once more
CREATE TABLE t(k TEXT, a INTEGER);
CREATE TABLE u(k TEXT NOT NULL, b TEXT);
CREATE VIEW v AS SELECT k, COUNT(*) AS n, SUM(a) AS s FROM t GROUP BY k;
COPY t FROM 'f.csv';
COPY t FROM 'f.csv';
SELECT k, a FROM t;
SELECT k, n, s FROM v;

-- into a table of other columns
COPY u FROM 'f.csv';
SELECT k, b FROM u;
SELECT k, n, s FROM v;

-- once more after its rows were deleted
DELETE FROM t;
COPY t FROM 'f.csv';
SELECT k, n, s FROM v;
