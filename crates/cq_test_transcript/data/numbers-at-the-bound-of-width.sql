-- Numbers at the bound of 2^127 - 1: what is written or worked out above it is refused before any row is read.
CREATE TABLE t(k INTEGER, a INTEGER);
INSERT INTO t VALUES (1, 5), (2, 9223372036854775807);
CREATE TABLE e(k INTEGER, a INTEGER);
-- 2^127 - 1
SELECT 170141183460469231731687303715884105727 FROM t LIMIT 1;
-- -(2^127 - 1)
SELECT -170141183460469231731687303715884105727 FROM t LIMIT 1;
-- 2^127 - 1 + 0
SELECT 170141183460469231731687303715884105727 + 0 FROM t LIMIT 1;
-- 2^64 * (2^63 - 1)
SELECT 18446744073709551616 * 9223372036854775807 FROM t LIMIT 1;
-- 2^127 - 1 + 1
SELECT 170141183460469231731687303715884105727 + 1 FROM t;
-- 2^127 - 1 - 1, by its sizes
SELECT 170141183460469231731687303715884105727 + (-1) FROM t;
SELECT 170141183460469231731687303715884105727 - 1 FROM t;
-- 2^64 * 2^63
SELECT 18446744073709551616 * 9223372036854775808 FROM t;
-- -2^64 * 2^63
SELECT -18446744073709551616 * 9223372036854775808 FROM t;
-- two products of columns, each as wide as it may be
SELECT a * a + a * a FROM t;
-- wide in a row that WHERE drops
SELECT a * a + a * a FROM t WHERE k = 1;
-- wide over no rows
SELECT 170141183460469231731687303715884105727 + 1 FROM e;
-- under LIMIT 0
SELECT a * a + a * a FROM t LIMIT 0;
-- in WHERE
SELECT k FROM t WHERE a * a + a * a > 0;
-- beside a part of AND that is False
SELECT k FROM t WHERE k < 0 AND a * a + a * a > 0;
-- in a SUM
SELECT SUM(a * a + a * a) FROM t;
-- in HAVING
SELECT k FROM t GROUP BY k, a HAVING a * a + a * a > 0;
-- in a view, which is not there then
CREATE VIEW twice AS SELECT a * a + a * a AS wide FROM t GROUP BY a;
SELECT 1 FROM twice;
SELECT e.k FROM e JOIN twice ON e.k = twice.wide;
-- and what names no such view is answered
SELECT a + a FROM e;
-- one product and a column are narrow enough, in each of these places
SELECT a * a + a FROM t WHERE a * a + a > 0 ORDER BY 1 DESC LIMIT 1;
SELECT k FROM t GROUP BY k, a HAVING a * a + a > 30;
SELECT SUM(a * a + a) FROM t;
-- a total is as wide as 2^127: it may stand, and be worked with by zero alone
CREATE VIEW totals AS SELECT k, k * 2 + 1 AS x, SUM(a) AS s FROM t GROUP BY k;
SELECT s FROM totals;
SELECT s + 0 FROM totals;
SELECT s + 1 FROM totals;
SELECT s + (-1) FROM totals;
SELECT s * 1 FROM totals;
SELECT s * (-1) FROM totals;
SELECT -s FROM totals;
SELECT s * 0 FROM totals;
-- the product is as wide as 0
SELECT s * 0 + 170141183460469231731687303715884105727 FROM totals;
SELECT s * 0 + 170141183460469231731687303715884105727 + 1 FROM totals;
-- a key is as wide as 2^63, and twice a key and one as 2^64 + 1
SELECT k * 18446744073709551615 + 9223372036854775807 FROM totals;
SELECT k * 18446744073709551615 + 9223372036854775808 FROM totals;
SELECT x * 9223372036854775807 + 9223372036854775808 FROM totals;
SELECT x * 9223372036854775807 + 9223372036854775809 FROM totals;
-- minus is as wide as what it turns
CREATE VIEW widest AS SELECT k * 0 + 170141183460469231731687303715884105727 AS w, COUNT(*) AS n FROM t GROUP BY k;
SELECT -w FROM widest;
SELECT -w + 1 FROM widest;
