-- None of these is read

-- nothing
DELETE FROM t WHERE;

-- a comparison without its right side
DELETE FROM t WHERE a =;

-- a comparison of two signs
DELETE FROM t WHERE a <=;

-- AND without its right side
DELETE FROM t WHERE a = 1 AND;

-- OR twice
DELETE FROM t WHERE a = 1 OR OR b;

-- two columns
DELETE FROM t WHERE a b;

-- a column and a number
DELETE FROM t WHERE a 1;

-- NOT between columns
DELETE FROM t WHERE a NOT b;

-- two comparisons in one
DELETE FROM t WHERE a = b = c;

-- NOT twice
DELETE FROM t WHERE NOT NOT a;

-- two signs
DELETE FROM t WHERE - - 1;

-- an empty list
DELETE FROM t WHERE a IN ();

-- an open parenthesis
DELETE FROM t WHERE (a;

-- a parenthesis that closes nothing
DELETE FROM t WHERE a);

-- a comma
DELETE FROM t WHERE a, b;

-- WHERE twice
DELETE FROM t WHERE a = 1 WHERE b;

-- GROUP behind a column
DELETE FROM t WHERE a GROUP;

-- GROUP alone
DELETE FROM t WHERE GROUP;


-- nothing, in SELECT
SELECT a FROM t WHERE;

-- a comparison without its right side, in SELECT
SELECT a FROM t WHERE a =;

-- a comparison of two signs, in SELECT
SELECT a FROM t WHERE a <=;

-- AND without its right side, in SELECT
SELECT a FROM t WHERE a = 1 AND;

-- OR twice, in SELECT
SELECT a FROM t WHERE a = 1 OR OR b;

-- two columns, in SELECT
SELECT a FROM t WHERE a b;

-- a column and a number, in SELECT
SELECT a FROM t WHERE a 1;

-- NOT between columns, in SELECT
SELECT a FROM t WHERE a NOT b;

-- two comparisons in one, in SELECT
SELECT a FROM t WHERE a = b = c;

-- NOT twice, in SELECT
SELECT a FROM t WHERE NOT NOT a;

-- two signs, in SELECT
SELECT a FROM t WHERE - - 1;

-- an empty list, in SELECT
SELECT a FROM t WHERE a IN ();

-- an open parenthesis, in SELECT
SELECT a FROM t WHERE (a;

-- a parenthesis that closes nothing, in SELECT
SELECT a FROM t WHERE a);

-- a comma, in SELECT
SELECT a FROM t WHERE a, b;

-- WHERE twice, in SELECT
SELECT a FROM t WHERE a = 1 WHERE b;

-- GROUP behind a column, in SELECT
SELECT a FROM t WHERE a GROUP;

-- GROUP alone, in SELECT
SELECT a FROM t WHERE GROUP;


-- nothing, in a view
CREATE VIEW v AS SELECT a FROM t WHERE  GROUP BY a;

-- a comparison without its right side, in a view
CREATE VIEW v AS SELECT a FROM t WHERE a = GROUP BY a;

-- a comparison of two signs, in a view
CREATE VIEW v AS SELECT a FROM t WHERE a <= GROUP BY a;

-- AND without its right side, in a view
CREATE VIEW v AS SELECT a FROM t WHERE a = 1 AND GROUP BY a;

-- OR twice, in a view
CREATE VIEW v AS SELECT a FROM t WHERE a = 1 OR OR b GROUP BY a;

-- two columns, in a view
CREATE VIEW v AS SELECT a FROM t WHERE a b GROUP BY a;

-- a column and a number, in a view
CREATE VIEW v AS SELECT a FROM t WHERE a 1 GROUP BY a;

-- NOT between columns, in a view
CREATE VIEW v AS SELECT a FROM t WHERE a NOT b GROUP BY a;

-- two comparisons in one, in a view
CREATE VIEW v AS SELECT a FROM t WHERE a = b = c GROUP BY a;

-- NOT twice, in a view
CREATE VIEW v AS SELECT a FROM t WHERE NOT NOT a GROUP BY a;

-- two signs, in a view
CREATE VIEW v AS SELECT a FROM t WHERE - - 1 GROUP BY a;

-- an empty list, in a view
CREATE VIEW v AS SELECT a FROM t WHERE a IN () GROUP BY a;

-- an open parenthesis, in a view
CREATE VIEW v AS SELECT a FROM t WHERE (a GROUP BY a;

-- a parenthesis that closes nothing, in a view
CREATE VIEW v AS SELECT a FROM t WHERE a) GROUP BY a;

-- a comma, in a view
CREATE VIEW v AS SELECT a FROM t WHERE a, b GROUP BY a;

-- WHERE twice, in a view
CREATE VIEW v AS SELECT a FROM t WHERE a = 1 WHERE b GROUP BY a;

-- GROUP behind a column, in a view
CREATE VIEW v AS SELECT a FROM t WHERE a GROUP GROUP BY a;

-- GROUP alone, in a view
CREATE VIEW v AS SELECT a FROM t WHERE GROUP GROUP BY a;
