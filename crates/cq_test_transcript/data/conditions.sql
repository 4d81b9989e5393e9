-- WHERE with any condition, over a table and over a view of it
CREATE TABLE t(a INTEGER, b TEXT, d DATE);
INSERT INTO t VALUES (1, 'tea', DATE '2024-02-29'), (2, 'jam', NULL), (NULL, 'te_',
    DATE '2023-03-01'), (3, NULL, DATE '2024-12-31');
CREATE VIEW v AS SELECT b, COUNT(*) AS n, SUM(a) AS s FROM t WHERE a > 0 OR a IS NULL GROUP BY b;

-- arithmetic, OR and a text
SELECT a FROM t WHERE a + 1 = 2 OR b = 'jam';

-- a list with NULL is never surely left out
SELECT a FROM t WHERE NOT a IN (1, NULL);

-- NOT IN a list without NULL
SELECT a FROM t WHERE a NOT IN (1, 3);

-- an underscore is one character
SELECT a FROM t WHERE b LIKE 'te_';

-- between two days
SELECT a FROM t WHERE d BETWEEN DATE '2024-01-01' AND DATE '2024-12-31';

-- parts of a day, and AND
SELECT a FROM t WHERE EXTRACT(MONTH FROM d) = 2 AND EXTRACT(DAY FROM d) > 28;

-- what is NULL
SELECT a FROM t WHERE b IS NULL OR d IS NULL;

-- NOT of AND
SELECT a FROM t WHERE NOT (a < 3 AND b IS NOT NULL);

-- a product and a difference
SELECT a FROM t WHERE a * a - 1 > 2;

-- a sign
SELECT a FROM t WHERE -a < -1;

-- a column with its table
SELECT a FROM t WHERE t.a = 3;

-- NULL is not equal to NULL
SELECT a FROM t WHERE NULL = NULL;

-- constants alone are true of every row
SELECT a FROM t WHERE 'a' < 'b';

-- NOT BETWEEN
SELECT a FROM t WHERE NOT a BETWEEN 2 AND 3;

-- AND binds closer than OR
SELECT a FROM t WHERE a = 1 OR a = 2 AND b = 'x';

-- a number is no condition
SELECT zz FROM t WHERE a;

-- NOT of a number
SELECT zz FROM t WHERE NOT a;

-- a sum of a text
SELECT zz FROM t WHERE b + 1 = 2;

-- a number compared with a text
SELECT zz FROM t WHERE a = 'x';

-- a list with a text
SELECT zz FROM t WHERE a IN (NULL, 'x');

-- LIKE of a day
SELECT zz FROM t WHERE d LIKE 'x';

-- a year of a number
SELECT zz FROM t WHERE EXTRACT(YEAR FROM a) = 1;

-- a column is looked up before the types of AND
SELECT zz FROM t WHERE a AND zz = 1;

-- the first fault of AND is the first part
SELECT zz FROM t WHERE a AND a = 1 AND zz = 1;

-- a table that the statement does not read
SELECT zz FROM t WHERE u.a = 1;

-- a column that its table does not have
SELECT zz FROM t WHERE t.zz = 1;

-- a day that is none
SELECT zz FROM t WHERE d = DATE '2023-02-29';

-- a sum of a 128-bit number
SELECT zz FROM t WHERE a + 170141183460469231731687303715884105727 > 0;

-- a product of three columns
SELECT zz FROM t WHERE a * a * a > 0;

-- NOT NOT
SELECT zz FROM t WHERE NOT NOT a = 1;

-- an aggregate
SELECT zz FROM t WHERE COUNT(*) = 1;

-- two comparisons in one
SELECT zz FROM t WHERE a = b = 1;

-- a number is no condition, in DELETE
DELETE FROM t WHERE a;

-- NOT of a number, in DELETE
DELETE FROM t WHERE NOT a;

-- a sum of a text, in DELETE
DELETE FROM t WHERE b + 1 = 2;

-- a number compared with a text, in DELETE
DELETE FROM t WHERE a = 'x';

-- a list with a text, in DELETE
DELETE FROM t WHERE a IN (NULL, 'x');

-- LIKE of a day, in DELETE
DELETE FROM t WHERE d LIKE 'x';

-- a year of a number, in DELETE
DELETE FROM t WHERE EXTRACT(YEAR FROM a) = 1;

-- a column is looked up before the types of AND, in DELETE
DELETE FROM t WHERE a AND zz = 1;

-- the first fault of AND is the first part, in DELETE
DELETE FROM t WHERE a AND a = 1 AND zz = 1;

-- a table that the statement does not read, in DELETE
DELETE FROM t WHERE u.a = 1;

-- a column that its table does not have, in DELETE
DELETE FROM t WHERE t.zz = 1;

-- a day that is none, in DELETE
DELETE FROM t WHERE d = DATE '2023-02-29';

-- a sum of a 128-bit number, in DELETE
DELETE FROM t WHERE a + 170141183460469231731687303715884105727 > 0;

-- a product of three columns, in DELETE
DELETE FROM t WHERE a * a * a > 0;

-- NOT NOT, in DELETE
DELETE FROM t WHERE NOT NOT a = 1;

-- an aggregate, in DELETE
DELETE FROM t WHERE COUNT(*) = 1;

-- two comparisons in one, in DELETE
DELETE FROM t WHERE a = b = 1;

-- a total and a count of a view
SELECT b FROM v WHERE s > 1 AND v.n = 1;

-- a count times 127
SELECT b FROM v WHERE n * 127 > 0 AND b < 'k';

-- a count times 128
SELECT b FROM v WHERE n * 128 > 0;

-- a total and a number
SELECT b FROM v WHERE s + 0 > 1;

-- a total with its sign turned
SELECT b FROM v WHERE -s < 0;

-- a total times zero
SELECT b FROM v WHERE s * 0 = 0 AND b LIKE '%a';

-- a view is not known by its table
SELECT b FROM v WHERE t.n = 1;

-- DELETE takes the rows of any condition, and the view follows
DELETE FROM t WHERE b LIKE 't%' AND EXTRACT(YEAR FROM d) = 2024;
SELECT b, n FROM v;
DELETE FROM t WHERE d IS NULL OR a = 3;
SELECT b, n, s FROM v;
SELECT b FROM t;
