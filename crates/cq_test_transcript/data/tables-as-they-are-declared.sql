-- The walk of CREATE TABLE

-- a column twice
CREATE TABLE t(a INTEGER NOT NULL, b TEXT, a DATE);

-- a column twice before an unknown one of SORT BY
CREATE TABLE t(a INTEGER, a TEXT) SORT BY zz;

-- an unknown column of SORT BY
CREATE TABLE t(a INTEGER, b TEXT) SORT BY b, zz, b;

-- a column of SORT BY twice
CREATE TABLE t(a INTEGER, b TEXT) SORT BY b, a, b;

-- columns of SORT BY in any order
CREATE TABLE t(a INTEGER, b TEXT) SORT BY b, a;
DROP TABLE t;

-- NOT without NULL
CREATE TABLE t(a INTEGER NOT) SORT BY a;

-- NULL without NOT
CREATE TABLE t(a INTEGER NULL);

-- SORT without BY
CREATE TABLE t(a INTEGER) SORT a;

-- a keyword as a name
CREATE TABLE t(date DATE);
