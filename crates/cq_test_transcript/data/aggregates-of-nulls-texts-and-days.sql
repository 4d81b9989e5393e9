-- COUNT, SUM, MIN and MAX over NULLs, over texts and over days
CREATE TABLE t(a INTEGER, s TEXT, d DATE);
INSERT INTO t VALUES (NULL, NULL, NULL), (NULL, NULL, NULL);
-- NULLs alone
SELECT COUNT(*), COUNT(a), COUNT(s), COUNT(d), SUM(a), MIN(a), MIN(s), MAX(d) FROM t;
-- aggregates of NULL
SELECT COUNT(NULL), SUM(NULL), MIN(NULL), MAX(NULL) FROM t;
-- MIN and MAX of NULL are of every type, and as wide as NULL
SELECT MIN(NULL) + 1, -MAX(NULL), EXTRACT(YEAR FROM MIN(NULL)) FROM t;
SELECT MIN(NULL) * 170141183460469231731687303715884105727 FROM t;
SELECT 1 FROM t HAVING MIN(NULL) = 'x' OR MAX(NULL) = 1 OR MIN(NULL) < DATE '2024-02-29' OR MAX(NULL) LIKE '%';
SELECT 1 FROM t HAVING MIN(NULL) IS NULL;
-- SUM and COUNT of NULL are numbers
SELECT 1 FROM t HAVING SUM(NULL) = 'x';
SELECT 1 FROM t HAVING COUNT(NULL) = DATE '2024-02-29';
SELECT SUM(NULL) + 0 FROM t;
-- values among the NULLs
INSERT INTO t VALUES (3, 'b', DATE '2024-02-29'), (-3, '', DATE '0001-01-01'), (3, 'B', DATE '9999-12-31'),
    (NULL, 'ä', NULL);
SELECT COUNT(*), COUNT(a), COUNT(s), COUNT(d), SUM(a) FROM t;
SELECT MIN(a), MAX(a), MIN(s), MAX(s), MIN(d), MAX(d) FROM t;
-- the empty text is the least one
SELECT MIN(s) FROM t;
-- texts as keys
SELECT s, COUNT(*), MAX(a) FROM t GROUP BY s;
-- days as keys
SELECT d, MIN(s) FROM t GROUP BY d;
-- numbers as keys
SELECT a, MIN(d), MAX(s) FROM t GROUP BY a;
-- a total of more than 64 bits, and an extreme of more
SELECT SUM(9223372036854775807), MAX(a * 9223372036854775807), MIN(a * 9223372036854775807) FROM t;
-- an empty text and a text with a backslash come out as they are told
INSERT INTO t VALUES (9, '\N', NULL);
SELECT MAX(s) FROM t WHERE a = 9;
