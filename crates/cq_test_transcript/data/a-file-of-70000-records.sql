-- The last digits of 70,000 numbers in a row, each digit 7,000 times
CREATE TABLE t(a INTEGER NOT NULL);
CREATE VIEW v AS SELECT a, COUNT(*) AS n, SUM(a) AS s FROM t GROUP BY a;
COPY t FROM 'digits.csv';
SELECT COUNT(*) AS n, SUM(a) AS s, MIN(a), MAX(a) FROM t;
SELECT a, n, s FROM v;
SELECT a FROM t ORDER BY a DESC LIMIT 2;

-- copied, moved, and half of it deleted
COPY t FROM 'digits.csv';
MOVE t 65536;
DELETE FROM t WHERE a >= 5;
MERGE t;
UPDATE t SET a = a + 5 WHERE a >= 3;
SELECT a, n, s FROM v;
SELECT COUNT(*) AS n, SUM(a) AS s FROM t;
