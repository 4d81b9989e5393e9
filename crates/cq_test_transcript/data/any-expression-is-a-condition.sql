-- Each of these is read; the table that it asks is not there

-- a column
DELETE FROM t WHERE a;

-- NULL
DELETE FROM t WHERE NULL;

-- a comparison
DELETE FROM t WHERE a = 1;

-- a day
DELETE FROM t WHERE a = DATE '2024-01-01';

-- arithmetic on both sides
DELETE FROM t WHERE 1 = a + b * -2;

-- AND with a column
DELETE FROM t WHERE a = 1 AND b;

-- OR, AND and NOT
DELETE FROM t WHERE a = 1 OR b = 2 AND NOT c = 3;

-- a list, and LIKE
DELETE FROM t WHERE (a IN (1, NULL)) OR NOT b LIKE 'x%';

-- BETWEEN, and IS NOT NULL
DELETE FROM t WHERE a NOT BETWEEN - 1 AND 2 AND b IS NOT NULL;

-- a part of a day
DELETE FROM t WHERE EXTRACT(YEAR FROM t.d) = 2024;

-- two pairs of parentheses
DELETE FROM t WHERE ((a));

-- a column, in SELECT
SELECT a FROM t WHERE a;

-- NULL, in SELECT
SELECT a FROM t WHERE NULL;

-- a comparison, in SELECT
SELECT a FROM t WHERE a = 1;

-- a day, in SELECT
SELECT a FROM t WHERE a = DATE '2024-01-01';

-- arithmetic on both sides, in SELECT
SELECT a FROM t WHERE 1 = a + b * -2;

-- AND with a column, in SELECT
SELECT a FROM t WHERE a = 1 AND b;

-- OR, AND and NOT, in SELECT
SELECT a FROM t WHERE a = 1 OR b = 2 AND NOT c = 3;

-- a list, and LIKE, in SELECT
SELECT a FROM t WHERE (a IN (1, NULL)) OR NOT b LIKE 'x%';

-- BETWEEN, and IS NOT NULL, in SELECT
SELECT a FROM t WHERE a NOT BETWEEN - 1 AND 2 AND b IS NOT NULL;

-- a part of a day, in SELECT
SELECT a FROM t WHERE EXTRACT(YEAR FROM t.d) = 2024;

-- two pairs of parentheses, in SELECT
SELECT a FROM t WHERE ((a));

-- a column, in a view
CREATE VIEW v AS SELECT a FROM t WHERE a GROUP BY a;

-- NULL, in a view
CREATE VIEW v AS SELECT a FROM t WHERE NULL GROUP BY a;

-- a comparison, in a view
CREATE VIEW v AS SELECT a FROM t WHERE a = 1 GROUP BY a;

-- a day, in a view
CREATE VIEW v AS SELECT a FROM t WHERE a = DATE '2024-01-01' GROUP BY a;

-- arithmetic on both sides, in a view
CREATE VIEW v AS SELECT a FROM t WHERE 1 = a + b * -2 GROUP BY a;

-- AND with a column, in a view
CREATE VIEW v AS SELECT a FROM t WHERE a = 1 AND b GROUP BY a;

-- OR, AND and NOT, in a view
CREATE VIEW v AS SELECT a FROM t WHERE a = 1 OR b = 2 AND NOT c = 3 GROUP BY a;

-- a list, and LIKE, in a view
CREATE VIEW v AS SELECT a FROM t WHERE (a IN (1, NULL)) OR NOT b LIKE 'x%' GROUP BY a;

-- BETWEEN, and IS NOT NULL, in a view
CREATE VIEW v AS SELECT a FROM t WHERE a NOT BETWEEN - 1 AND 2 AND b IS NOT NULL GROUP BY a;

-- a part of a day, in a view
CREATE VIEW v AS SELECT a FROM t WHERE EXTRACT(YEAR FROM t.d) = 2024 GROUP BY a;

-- two pairs of parentheses, in a view
CREATE VIEW v AS SELECT a FROM t WHERE ((a)) GROUP BY a;
