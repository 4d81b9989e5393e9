-- Totals at both ends of 128 bits. A row of -2^63, -2^63 and 0 adds 2^126, and one of -2^63, 2^63 - 1 and -2^63 takes
-- it away. The totals of the keys are: one above the greatest number (1), the greatest one with the running total
-- above it (2), the least one (3), one below it (4), 0 by way of twice 2^127 (5), and NULL (6).
CREATE TABLE t(k INTEGER, a INTEGER, b INTEGER, c INTEGER);
INSERT INTO t VALUES (1, -9223372036854775808, -9223372036854775808, 0),
    (1, -9223372036854775808, -9223372036854775808, 0);
INSERT INTO t VALUES (2, -9223372036854775808, -9223372036854775808, 0),
    (2, -9223372036854775808, -9223372036854775808, 0), (2, 0, 0, -1);
INSERT INTO t VALUES (3, -9223372036854775808, 9223372036854775807, -9223372036854775808),
    (3, -9223372036854775808, 9223372036854775807, -9223372036854775808);
INSERT INTO t VALUES (4, -9223372036854775808, 9223372036854775807, -9223372036854775808),
    (4, -9223372036854775808, 9223372036854775807, -9223372036854775808), (4, 0, 0, -1);
INSERT INTO t VALUES (5, -9223372036854775808, -9223372036854775808, 0),
    (5, -9223372036854775808, -9223372036854775808, 0),
    (5, -9223372036854775808, -9223372036854775808, 0),
    (5, -9223372036854775808, -9223372036854775808, 0),
    (5, -9223372036854775808, 9223372036854775807, -9223372036854775808),
    (5, -9223372036854775808, 9223372036854775807, -9223372036854775808),
    (5, -9223372036854775808, 9223372036854775807, -9223372036854775808),
    (5, -9223372036854775808, 9223372036854775807, -9223372036854775808);
INSERT INTO t VALUES (6, NULL, NULL, NULL);
CREATE TABLE u(a INTEGER);
CREATE VIEW v AS SELECT k, SUM(a * b + c) AS s FROM t GROUP BY k;
CREATE VIEW counted AS SELECT k, COUNT(a) AS n FROM t GROUP BY k;
-- the running total leaves 128 bits
SELECT SUM(a * b + c) FROM t WHERE k = 2;
-- twice 2^127 and back
SELECT SUM(a * b + c) FROM t WHERE k = 5;
-- NULL alone
SELECT SUM(a * b + c) FROM t WHERE k = 6;
-- no sum is asked for
SELECT k, COUNT(a) FROM t GROUP BY k;
-- a view with sums is not named
SELECT k FROM counted LIMIT 1;
-- the least number may be shown and compared: SUM
SELECT SUM(a * b + c) FROM t WHERE k = 3;
-- SUM * 0
SELECT SUM(a * b + c) * 0 FROM t WHERE k = 3;
-- 0 * SUM
SELECT 0 * SUM(a * b + c) FROM t WHERE k = 3;
-- HAVING SUM < 0
SELECT SUM(a * b + c) FROM t WHERE k = 3 GROUP BY k HAVING SUM(a * b + c) < 0;
-- the least number is too wide to work with: SUM + 0
SELECT SUM(a * b + c) + 0 FROM t WHERE k = 3;
-- SUM * 1
SELECT SUM(a * b + c) * 1 FROM t WHERE k = 3;
-- -SUM
SELECT -SUM(a * b + c) FROM t WHERE k = 3;
-- a total out of range refuses the query wherever it stands: above the greatest number
SELECT SUM(a * b + c) FROM t WHERE k = 1;
-- below the least number
SELECT SUM(a * b + c) FROM t WHERE k = 4;
-- in some group
SELECT k, SUM(a * b + c) FROM t GROUP BY k;
-- in a group that HAVING drops
SELECT k, SUM(a * b + c) FROM t GROUP BY k HAVING k = 2;
-- the sum is no item
SELECT k FROM t GROUP BY k HAVING SUM(a * b + c) IS NOT NULL;
-- HAVING drops every group
SELECT k, SUM(a * b + c) FROM t GROUP BY k HAVING k < 0;
-- under LIMIT 0
SELECT k, SUM(a * b + c) FROM t GROUP BY k LIMIT 0;
-- under DISTINCT
SELECT DISTINCT SUM(a * b + c) * 0 FROM t GROUP BY k;
-- a view's sum that is not selected
SELECT k FROM v;
-- a view's sum in a row that WHERE drops
SELECT k FROM v WHERE k = 2;
-- a view's sum under LIMIT 0
SELECT k FROM v LIMIT 0;
-- a view that joins with no row
SELECT u.a FROM u JOIN v ON u.a = v.k;
-- the groups within the range, without those that are not
SELECT k, SUM(a * b + c) AS s FROM t WHERE k <> 1 AND k <> 4 GROUP BY k ORDER BY s;
