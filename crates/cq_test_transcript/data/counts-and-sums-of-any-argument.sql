-- COUNT and SUM of expressions, constants and NULL
CREATE TABLE t(k INTEGER, a INTEGER, b INTEGER, s TEXT);
CREATE VIEW v AS SELECT COUNT(s), COUNT(a + b), SUM(t.a * b - 1) AS p, SUM(NULL), COUNT(NULL), k
    FROM t WHERE a IS NULL OR a < 100 GROUP BY k;
INSERT INTO t VALUES (1, 2, 3, 'x'), (1, 4, NULL, NULL), (2, NULL, 5, ''), (1, 100, 100, 'y'),
    (NULL, -1, 1, NULL);
SELECT k, c1, c2, p, c4, c5 FROM v;
DELETE FROM t WHERE b = 3;
SELECT p, c1 FROM v WHERE k = 1;
