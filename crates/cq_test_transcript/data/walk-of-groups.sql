-- Which refusal of a grouped SELECT is told: FROM, WHERE, GROUP BY, the items, HAVING, ORDER BY
CREATE TABLE t(a INTEGER, b INTEGER, s TEXT, d DATE);
CREATE TABLE u(a INTEGER, c INTEGER);
INSERT INTO t VALUES (1, 2, 'x', DATE '2024-02-29');
-- GROUP BY: a source, a column and a name of two sources, before the items
SELECT 'x' + 1 FROM t GROUP BY q.a;
SELECT 'x' + 1 FROM t GROUP BY zz;
SELECT 'x' + 1 FROM t GROUP BY t.zz;
SELECT 'x' + 1 FROM t JOIN u ON t.a = u.a GROUP BY a;
-- FROM and WHERE come before GROUP BY
SELECT 'x' + 1 FROM nope GROUP BY zz;
SELECT 'x' + 1 FROM t JOIN u ON t.a = u.zz WHERE a GROUP BY q.a;
SELECT 'x' + 1 FROM t WHERE a GROUP BY zz;
SELECT 'x' + 1 FROM t WHERE a * a * a = 1 GROUP BY zz;
-- the first of its columns decides
SELECT 'x' + 1 FROM t JOIN u ON t.a = u.a GROUP BY b, a, zz, q.a;
SELECT 'x' + 1 FROM t JOIN u ON t.a = u.a GROUP BY q.a, zz, a;
-- 64 columns, also of one name, and 65 before the items
SELECT a FROM t GROUP BY a, a, a, a, a, a, a, a, a, a, a, a, a, a, a, a, a, a, a, a,
    a, a, a, a, a, a, a, a, a, a, a, a, a, a, a, a, a, a, a, a, a, a, a, a, a, a, a, a, a, a, a, a,
    a, a, a, a, a, a, a, a, a, a, a, a;
SELECT 'x' + 1 FROM t GROUP BY a, a, a, a, a, a, a, a, a, a, a, a, a, a, a, a, a, a, a, a,
    a, a, a, a, a, a, a, a, a, a, a, a, a, a, a, a, a, a, a, a, a, a, a, a, a, a, a, a, a, a, a, a,
    a, a, a, a, a, a, a, a, a, a, a, a, a;
-- each column comes before their number
SELECT 'x' + 1 FROM t GROUP BY a, a, a, a, a, a, a, a, a, a, a, a, a, a, a, a, a, a, a, a,
    a, a, a, a, a, a, a, a, a, a, a, a, a, a, a, a, a, a, a, a, a, a, a, a, a, a, a, a, a, a, a, a,
    a, a, a, a, a, a, a, a, a, a, a, a, zz;
-- a column that is not grouped, in each kind of a grouped query
SELECT b FROM t GROUP BY a;
SELECT a, COUNT(*) FROM t;
SELECT a, SUM(b) FROM t;
SELECT a FROM t HAVING 1 = 1;
SELECT 1 FROM t HAVING MAX(a) = 1 OR a = 1;
SELECT t.b FROM t GROUP BY t.a;
SELECT -(a * b) FROM t GROUP BY a;
SELECT EXTRACT(DAY FROM d) FROM t GROUP BY a, b, s;
SELECT a FROM t GROUP BY a HAVING s LIKE 'x';
-- inside an aggregate any column stands
SELECT a, SUM(b), COUNT(d), MAX(s) FROM t GROUP BY a;
SELECT a FROM t GROUP BY a HAVING SUM(b) = 2;
-- 16 stands at the column: before its operator, and after what is in front of it
SELECT a + 'x', COUNT(*) FROM t;
SELECT 'x' + a, COUNT(*) FROM t;
SELECT 'x' + 1 + a, COUNT(*) FROM t;
SELECT a * a * a, COUNT(*) FROM t;
SELECT COUNT(*) + 'x', a FROM t;
SELECT a, COUNT(*) + 'x' FROM t;
-- 11, 12 and 13 come before it
SELECT q.b, COUNT(*) FROM t;
SELECT zz, COUNT(*) FROM t;
SELECT a, COUNT(*) FROM t JOIN u ON t.a = u.a;
-- the argument of an aggregate, from the inside
SELECT COUNT(q.a) FROM t;
SELECT MAX(zz) FROM t;
SELECT MIN(a) FROM t JOIN u ON t.a = u.a;
SELECT MIN(a + 'x') FROM t;
SELECT SUM(a * a * b) FROM t;
SELECT MAX(DATE '2023-02-29') FROM t;
-- then what it is of
SELECT SUM(s) FROM t;
SELECT SUM(d) FROM t;
SELECT SUM((a = 1)) FROM t;
SELECT COUNT((a = 1)) FROM t;
SELECT MIN((a = 1)) FROM t;
SELECT MAX((NOT a = 1 OR b = 2)) FROM t;
-- an aggregate is of its type
SELECT COUNT(s) + MIN(s) FROM t;
SELECT -MAX(d) FROM t;
SELECT EXTRACT(YEAR FROM COUNT(d)) FROM t;
SELECT a FROM t GROUP BY a HAVING MIN(s) = 1;
SELECT a FROM t GROUP BY a HAVING COUNT(s) = 'x';
SELECT a FROM t GROUP BY a HAVING SUM(b) BETWEEN 1 AND 'x';
SELECT a FROM t GROUP BY a HAVING MAX(d) IN (DATE '2024-02-29', 1);
SELECT a FROM t GROUP BY a HAVING MAX(d) LIKE 'x';
-- a condition is no item, and a value is no HAVING
SELECT COUNT(*) = 1 FROM t;
SELECT a = 1 FROM t GROUP BY a;
SELECT COUNT(*) FROM t HAVING COUNT(*);
SELECT a FROM t GROUP BY a HAVING a;
SELECT COUNT(*) FROM t HAVING NULL;
SELECT COUNT(*) FROM t HAVING NOT MAX(a);
SELECT COUNT(*) FROM t HAVING COUNT(*) = 1 AND MAX(a);
-- width: a total may be shown and compared, and times 0 it is narrow
SELECT SUM(a), SUM(a) * 0, 0 * SUM(a) FROM t HAVING SUM(a) > 0;
SELECT SUM(a) + 0 FROM t;
SELECT SUM(a) - SUM(a) FROM t;
SELECT SUM(a) * 1 FROM t;
SELECT -SUM(a) FROM t;
SELECT COUNT(*) FROM t HAVING SUM(a) + 0 > 0;
-- a count has the limit 2^120
SELECT COUNT(*) + COUNT(a), COUNT(*) * 127, -COUNT(*) FROM t;
SELECT COUNT(*) * 128 FROM t;
SELECT COUNT(DISTINCT a) * 127, COUNT(DISTINCT s) FROM t;
SELECT COUNT(DISTINCT a) * 128 FROM t;
SELECT COUNT(*) * COUNT(*) FROM t;
-- MIN and MAX have that of their argument
SELECT MIN(a) * MAX(b), MAX(a * b) - 1, MIN(7) * 24305883351495604533098186245126300818 FROM t;
SELECT MIN(7) * 24305883351495604533098186245126300819 FROM t;
SELECT MAX(a * b) + MIN(a * b) FROM t;
SELECT MIN(a) * MAX(b) * 2 FROM t;
-- from the left, and at one operator 15 before 17
SELECT SUM(a) + 0 + 'x' FROM t;
SELECT SUM(a) + 'x' FROM t;
SELECT 'x' + SUM(a) + 0 FROM t;
-- items come before HAVING, and each of them before the next one
SELECT zz FROM t HAVING 'x';
SELECT SUM(s), zz FROM t;
SELECT zz, SUM(s) FROM t;
SELECT -SUM(a), a FROM t HAVING zz = 1;
-- 64 items and a HAVING that is none, then 65 before it
SELECT COUNT(*), COUNT(*), COUNT(*), COUNT(*), COUNT(*), COUNT(*), COUNT(*), COUNT(*), COUNT(*),
    COUNT(*), COUNT(*), COUNT(*), COUNT(*), COUNT(*), COUNT(*), COUNT(*), COUNT(*), COUNT(*),
    COUNT(*), COUNT(*), COUNT(*), COUNT(*), COUNT(*), COUNT(*), COUNT(*), COUNT(*), COUNT(*),
    COUNT(*), COUNT(*), COUNT(*), COUNT(*), COUNT(*), COUNT(*), COUNT(*), COUNT(*), COUNT(*),
    COUNT(*), COUNT(*), COUNT(*), COUNT(*), COUNT(*), COUNT(*), COUNT(*), COUNT(*), COUNT(*),
    COUNT(*), COUNT(*), COUNT(*), COUNT(*), COUNT(*), COUNT(*), COUNT(*), COUNT(*), COUNT(*),
    COUNT(*), COUNT(*), COUNT(*), COUNT(*), COUNT(*), COUNT(*), COUNT(*), COUNT(*), COUNT(*),
    COUNT(*) FROM t HAVING COUNT(*);
SELECT COUNT(*), COUNT(*), COUNT(*), COUNT(*), COUNT(*), COUNT(*), COUNT(*), COUNT(*), COUNT(*),
    COUNT(*), COUNT(*), COUNT(*), COUNT(*), COUNT(*), COUNT(*), COUNT(*), COUNT(*), COUNT(*),
    COUNT(*), COUNT(*), COUNT(*), COUNT(*), COUNT(*), COUNT(*), COUNT(*), COUNT(*), COUNT(*),
    COUNT(*), COUNT(*), COUNT(*), COUNT(*), COUNT(*), COUNT(*), COUNT(*), COUNT(*), COUNT(*),
    COUNT(*), COUNT(*), COUNT(*), COUNT(*), COUNT(*), COUNT(*), COUNT(*), COUNT(*), COUNT(*),
    COUNT(*), COUNT(*), COUNT(*), COUNT(*), COUNT(*), COUNT(*), COUNT(*), COUNT(*), COUNT(*),
    COUNT(*), COUNT(*), COUNT(*), COUNT(*), COUNT(*), COUNT(*), COUNT(*), COUNT(*), COUNT(*),
    COUNT(*), COUNT(*) FROM t HAVING COUNT(*);
-- each item comes before their number
SELECT COUNT(*), COUNT(*), COUNT(*), COUNT(*), COUNT(*), COUNT(*), COUNT(*), COUNT(*), COUNT(*),
    COUNT(*), COUNT(*), COUNT(*), COUNT(*), COUNT(*), COUNT(*), COUNT(*), COUNT(*), COUNT(*),
    COUNT(*), COUNT(*), COUNT(*), COUNT(*), COUNT(*), COUNT(*), COUNT(*), COUNT(*), COUNT(*),
    COUNT(*), COUNT(*), COUNT(*), COUNT(*), COUNT(*), COUNT(*), COUNT(*), COUNT(*), COUNT(*),
    COUNT(*), COUNT(*), COUNT(*), COUNT(*), COUNT(*), COUNT(*), COUNT(*), COUNT(*), COUNT(*),
    COUNT(*), COUNT(*), COUNT(*), COUNT(*), COUNT(*), COUNT(*), COUNT(*), COUNT(*), COUNT(*),
    COUNT(*), COUNT(*), COUNT(*), COUNT(*), COUNT(*), COUNT(*), COUNT(*), COUNT(*), COUNT(*),
    COUNT(*), a FROM t;
-- HAVING comes before ORDER BY
SELECT COUNT(*) FROM t HAVING COUNT(*) ORDER BY zz;
SELECT COUNT(*) FROM t HAVING zz = 1 ORDER BY 0;
SELECT COUNT(*) FROM t HAVING b = 1 ORDER BY zz;
SELECT COUNT(*) FROM t GROUP BY b HAVING b = 1 ORDER BY b;
-- what is no clause: HAVING in front of GROUP BY, and GROUP BY of an expression
SELECT a FROM t HAVING a = 1 GROUP BY a;
SELECT a FROM t GROUP BY a + 1;
SELECT a FROM t GROUP BY 1;
SELECT a FROM t GROUP BY (a);
-- DISTINCT inside an aggregate stands before what COUNT counts, and nowhere else
SELECT COUNT(DISTINCT a), COUNT(DISTINCT a * 0), COUNT(DISTINCT NULL) FROM t;
SELECT SUM(DISTINCT a) FROM t;
SELECT COUNT(DISTINCT *) FROM t;
SELECT COUNT(DISTINCT) FROM t;
SELECT COUNT(DISTINCT a, b) FROM t;
SELECT COUNT(DISTINCT (a = 1)) FROM t;
SELECT COUNT(DISTINCT COUNT(a)) FROM t;
SELECT a FROM t WHERE COUNT(DISTINCT a) > 0;
-- nothing has changed
SELECT a, b, s, d FROM t;
