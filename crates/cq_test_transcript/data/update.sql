-- each expression reads the old row
CREATE TABLE t(a INTEGER, b INTEGER);
INSERT INTO t VALUES (1,2);
UPDATE t SET a = b, b = a;
SELECT a, b FROM t;
-- the rows where WHERE is True, and all without it, are counted, also those that stay as they are
INSERT INTO t VALUES (2,NULL), (3,3), (NULL,4);
UPDATE t SET b = b;
UPDATE t SET a = a + 10 WHERE b < 4;
SELECT a, b FROM t;
-- NULL
UPDATE t SET a = a + b WHERE a = 2;
SELECT a, b FROM t WHERE a IS NULL;
UPDATE t SET a = NULL, b = 7 WHERE b IS NULL;
UPDATE t SET b = 0 WHERE a > 100;
SELECT a, b FROM t;
-- the name
CREATE TABLE u(k INTEGER NOT NULL, s TEXT, d DATE);
INSERT INTO u VALUES (1,'x',DATE '2024-02-29'), (2,'y',NULL);
CREATE VIEW v AS SELECT s, COUNT(*) AS n, SUM(k) AS total FROM u GROUP BY s;
UPDATE w SET k = 1;
UPDATE v SET n = 1;
-- WHERE
UPDATE u SET k = 1 WHERE z = 1;
UPDATE u SET k = 1 WHERE q.k = 1;
UPDATE u SET k = 1 WHERE k;
UPDATE u SET s = s WHERE k = 170141183460469231731687303715884105728;
-- a column and its expression
UPDATE u SET z = 1;
UPDATE u SET s = 'a', d = NULL, z = 1;
UPDATE u SET k = z;
UPDATE u SET k = q.k;
UPDATE u SET k = k * k * k;
UPDATE u SET d = DATE '2023-02-29';
UPDATE u SET k = 1, k = 2;
UPDATE u SET k = 1, s = 'a', k = 2;
UPDATE u SET k = k = 1;
UPDATE u SET k = 'x';
UPDATE u SET k = 1, s = d;
UPDATE u SET d = EXTRACT(DAY FROM d);
-- aggregates
UPDATE u SET k = COUNT(*);
UPDATE w SET z = 1 WHERE COUNT(*) = 1;
-- two faults: WHERE comes first, an expression before its assignment, and the walk before the values
UPDATE u SET z = 1 WHERE k = 'x';
UPDATE u SET k = 'x', z = 1;
UPDATE u SET k = 1, k = 'x';
UPDATE u SET k = 1, k = z;
UPDATE u SET k = NULL, z = 1;
-- values
UPDATE u SET k = NULL;
UPDATE u SET k = 9223372036854775808;
UPDATE u SET k = k * 9223372036854775807 WHERE k = 2;
-- assignment by assignment: a number outside in any row, then NULL in any
CREATE TABLE n(a INTEGER NOT NULL, b INTEGER NOT NULL, c INTEGER);
INSERT INTO n VALUES (1,1,NULL), (2,4611686018427387904,1);
UPDATE n SET a = c, b = b * 2;
UPDATE n SET b = b * 2, a = c;
UPDATE n SET a = c * 9223372036854775807 + c;
UPDATE n SET a = NULL, b = 9223372036854775808 WHERE a > 100;
UPDATE n SET a = c WHERE c IS NOT NULL;
SELECT a, b, c FROM n;
-- nothing of what was refused was done
SELECT k, s, d FROM u;
SELECT s, n, total FROM v;
-- a view: old rows leave, new ones come, and a group leaves with its last row
UPDATE u SET s = 'x', k = k + 10 WHERE s = 'y';
SELECT s, n, total FROM v;
UPDATE u SET s = NULL WHERE k = 1;
SELECT s, n, total FROM v;
UPDATE u SET k = 9223372036854775807, s = 'z';
SELECT s, n, total FROM v;
UPDATE u SET k = k + 1;
SELECT s, n, total FROM v;
UPDATE u SET k = -9223372036854775808;
SELECT s, n, total FROM v;
UPDATE u SET d = DATE '2024-03-01', s = 'it''s';
SELECT k, s, d FROM u;
