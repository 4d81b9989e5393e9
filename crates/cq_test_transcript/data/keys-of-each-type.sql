-- Groups by texts and days, with NULL as one key
CREATE TABLE t(g TEXT, d DATE, a INTEGER);
INSERT INTO t VALUES ('tea', DATE '2024-01-01', 3), ('tea', NULL, NULL), (NULL, NULL, 5), ('jam',
    NULL, NULL);
CREATE VIEW v AS SELECT g, COUNT(*) AS n, SUM(a) AS s FROM t GROUP BY g;
CREATE VIEW w AS SELECT d, COUNT(*) AS n FROM t GROUP BY d, g;
INSERT INTO t VALUES (NULL, DATE '2024-01-01', -5), ('jam', NULL, 1);
DELETE FROM t WHERE a = 3;
SELECT g, n, s FROM v;
SELECT n, d FROM w;
SELECT g FROM v WHERE s < 1;
DELETE FROM t WHERE a <> 1;
SELECT g, n, s FROM v;
