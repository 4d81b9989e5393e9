-- Rows from files beside rows from statements
CREATE TABLE t(a INTEGER, b INTEGER NOT NULL, c TEXT);
CREATE VIEW v AS SELECT c, COUNT(*) AS n, SUM(a) AS x, SUM(b) AS y FROM t GROUP BY c;
INSERT INTO t VALUES (1, 10, 'tea'), (NULL, 20, NULL);
COPY t FROM 'three.csv';
SELECT a, b, c FROM t;

-- an UPDATE reads what was copied
UPDATE t SET a = b, b = b + 1 WHERE a IS NULL OR c = 'jam';
SELECT a, b, c FROM t;
SELECT c, n, x, y FROM v;

-- of equal rows from both, a DELETE takes all
DELETE FROM t WHERE c = 'tea';
INSERT INTO t VALUES (3, 40, 'tea');
COPY t FROM 'three.csv';
SELECT c, n, x, y FROM v;
DELETE FROM t WHERE a = 3 AND b = 40;

-- refused between two that are not
UPDATE t SET b = a;
COPY t FROM 'without-b.csv';
DELETE FROM t WHERE a = 'tea';
SELECT a, b, c FROM t;
SELECT c, n, x, y FROM v;

-- joined with rows of another file
CREATE TABLE u(c TEXT, price INTEGER);
COPY u FROM 'prices.csv';
SELECT t.a, price FROM t JOIN u ON t.c = u.c;
SELECT v.c, n, price FROM v JOIN u ON u.c = v.c;
