-- Two numbers and NULL for 3,000 rows: what is equal by its keys stands in the order of all columns
CREATE TABLE t(a INTEGER, b INTEGER, c TEXT);
COPY t FROM 'rows.csv';
SELECT a, b, c FROM t ORDER BY a LIMIT 5;
SELECT a, b, c FROM t ORDER BY a DESC LIMIT 5;
SELECT a, b, c FROM t ORDER BY a DESC, c DESC LIMIT 4;
SELECT a, b, c FROM t ORDER BY c, a DESC, b DESC LIMIT 4;
SELECT a, b, c FROM t LIMIT 3;
SELECT a, b, c FROM t ORDER BY b DESC LIMIT 0;
-- a constant for a key
SELECT 1 AS one, b FROM t ORDER BY one DESC LIMIT 2;
-- rows that are equal in all that is shown
SELECT c, a FROM t ORDER BY c DESC LIMIT 3;
-- a limit that is met exactly, and one beyond all rows
SELECT COUNT(*) AS n FROM t LIMIT 1;
SELECT b FROM t WHERE b < 3 ORDER BY b DESC LIMIT 3;
SELECT b FROM t WHERE b < 3 ORDER BY b LIMIT 9000;
