CREATE TABLE t(k INTEGER, a INTEGER);
INSERT INTO t VALUES (1,5), (2,-3);
CREATE VIEW v AS SELECT k, COUNT(*) AS n, SUM(a) AS s FROM t GROUP BY k;
INSERT INTO t VALUES (1,7);
DELETE FROM t WHERE k = 2;
SELECT k, n, s FROM v;
DROP TABLE t;
INSERT INTO v VALUES (1,1,1);
-- a row that comes joins its group, also under NULL; a total of the rows that WHERE keeps
CREATE TABLE rows_come(k INTEGER, a INTEGER);
INSERT INTO rows_come VALUES (1, 5), (2, 9), (NULL, 2);
CREATE VIEW with_them AS SELECT k, k * 2 + 1 AS x, SUM(a) AS s FROM rows_come WHERE a <> 9 GROUP BY k;
INSERT INTO rows_come VALUES (NULL, 6);
SELECT k, x, s FROM with_them;
-- a group goes with its last row
CREATE TABLE rows_go(k INTEGER, a INTEGER);
INSERT INTO rows_go VALUES (1, 5), (NULL, 2);
CREATE VIEW without_them AS SELECT k, k * 2 + 1 AS x, SUM(a) AS s FROM rows_go WHERE a <> 9 GROUP BY k;
DELETE FROM rows_go WHERE k = 1;
SELECT k, x, s FROM without_them;
-- a row that WHERE drops changes nothing
CREATE TABLE rows_stay(k INTEGER, a INTEGER);
INSERT INTO rows_stay VALUES (1, 5);
CREATE VIEW as_it_was AS SELECT k, k * 2 + 1 AS x, SUM(a) AS s FROM rows_stay WHERE a <> 9 GROUP BY k;
INSERT INTO rows_stay VALUES (1, 9);
SELECT k, x, s FROM as_it_was;
