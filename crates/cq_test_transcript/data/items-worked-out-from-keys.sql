-- Items of views from the keys of groups, as rows come and go
CREATE TABLE t(k INTEGER, d DATE, s TEXT);
CREATE VIEW v AS SELECT k * 2 + 1 AS odd, EXTRACT(YEAR FROM d), -k, 'is', (s), COUNT(*) AS n
    FROM t q GROUP BY q, s, d, k;
CREATE VIEW w AS SELECT EXTRACT(DAY FROM d) AS dd, -k, 'is', (s), s, COUNT(*) AS n FROM t q
    GROUP BY d, s, k;
INSERT INTO t VALUES (1, DATE '2024-02-29', 'x'), (1, DATE '2024-02-29', 'x'), (NULL, NULL, NULL),
    (-3, DATE '0001-01-31', '');
SELECT dd, c2, c3, c4, s, n FROM w;
DELETE FROM t WHERE k = 1 OR k IS NULL;
INSERT INTO t VALUES (7, DATE '9999-12-31', 'y');
SELECT dd * 1000, c2 - 1, n FROM w WHERE dd > 30 AND c3 = 'is';
SELECT n FROM w WHERE c3 = 1;
