-- Groups by their keys, and what HAVING keeps of them; NULL keys are one group.
CREATE TABLE t(k INTEGER, a INTEGER);
INSERT INTO t VALUES (NULL, 1), (1, 3), (NULL, 2), (1, NULL), (2, NULL), (1, 3);
-- all groups
SELECT k, COUNT(*), COUNT(a), SUM(a), MIN(a), MAX(a) FROM t GROUP BY k;
-- HAVING COUNT(*) > 1
SELECT k FROM t GROUP BY k HAVING COUNT(*) > 1;
-- HAVING SUM(a) > 3, once Unknown
SELECT k FROM t GROUP BY k HAVING SUM(a) > 3;
-- HAVING k IS NULL
SELECT COUNT(*) FROM t GROUP BY k HAVING k IS NULL;
-- WHERE comes before groups
SELECT k, COUNT(*), COUNT(a), SUM(a), MIN(a), MAX(a) FROM t WHERE a > 1 GROUP BY k;
-- by both columns
SELECT k, a, COUNT(*) FROM t GROUP BY a, k;
-- by a key that is not shown
SELECT COUNT(*) FROM t GROUP BY k;
-- SUM(a * a)
SELECT k, SUM(a * a) FROM t GROUP BY k;
