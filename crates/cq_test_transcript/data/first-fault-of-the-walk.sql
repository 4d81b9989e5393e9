-- Which refusal wins where a statement has several
CREATE TABLE t(a INTEGER, b INTEGER);
INSERT INTO t VALUES (1, 2);

-- a table of this name is there
CREATE TABLE t(a INTEGER);

-- a column twice
CREATE TABLE u(a INTEGER, b INTEGER, a INTEGER);

-- a table is looked up before the rows
INSERT INTO u VALUES (99999999999999999999);

-- a row that is too short
INSERT INTO t VALUES (1, 2), (3);

-- a number outside before a short row
INSERT INTO t VALUES (1, 9223372036854775808), (3);

-- a short row before a number outside
INSERT INTO t VALUES (3), (1, 9223372036854775808);

-- a table is looked up before all columns
SELECT zz FROM nope WHERE q = 1;

-- a column of WHERE is looked up
SELECT zz FROM t WHERE q = 340282366920938463463374607431768211456;

-- a number of 128 bits in WHERE
SELECT zz FROM t WHERE a = 170141183460469231731687303715884105728;

-- the widest number
SELECT zz FROM t WHERE a = 170141183460469231731687303715884105727;

-- two numbers
SELECT a FROM t WHERE a = - 1 1;

-- a number with letters
SELECT a FROM t WHERE a = 1a;

-- a keyword as a name
SELECT select FROM t;

-- a comment in the place of a row
INSERT INTO t VALUES (--1
);

-- two constants without a comma
INSERT INTO t VALUES (NULL 1);

-- DROP VIEW of a table
DROP VIEW t;

-- DROP TABLE of no table
DROP TABLE u;

-- DROP TABLE of two names
DROP TABLE t u;

-- DELETE from no table
DELETE FROM u WHERE zz = 1;

-- DELETE with an unknown column
DELETE FROM t WHERE zz = 1;

-- DELETE with a number of 128 bits
DELETE FROM t WHERE a = 170141183460469231731687303715884105728;

-- DELETE without FROM
DELETE t;

-- a sign that is none
SELECT a FROM t !;

-- nothing has changed
SELECT a, b FROM t;
