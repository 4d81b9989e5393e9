-- What stands behind the parenthesis of CREATE TABLE

-- NOT without NULL
CREATE TABLE t(a INTEGER NOT);

-- NOT without NULL before a comma
CREATE TABLE t(a INTEGER NOT, b TEXT);

-- NULL without NOT
CREATE TABLE t(a INTEGER NULL);

-- NOT NULL twice
CREATE TABLE t(a INTEGER NOT NULL NOT NULL);

-- no type before NOT NULL
CREATE TABLE t(a NOT NULL);

-- NOT NULL before the type
CREATE TABLE t(a NOT NULL TEXT);

-- two types
CREATE TABLE t(a TEXT DATE);

-- a type that is a keyword
CREATE TABLE t(a COUNT);

-- a day in the place of a type
CREATE TABLE t(a DATE '2024-01-01');

-- a day behind a type
CREATE TABLE t(a DATE DATE '2024-01-01');

-- SORT alone
CREATE TABLE t(a INTEGER) SORT;

-- SORT without BY
CREATE TABLE t(a INTEGER) SORT a;

-- SORT BY without a column
CREATE TABLE t(a INTEGER) SORT BY;

-- a comma at the end
CREATE TABLE t(a INTEGER) SORT BY a,;

-- no comma
CREATE TABLE t(a INTEGER) SORT BY a b;

-- a column in parentheses
CREATE TABLE t(a INTEGER) SORT BY (a);

-- SORT BY twice
CREATE TABLE t(a INTEGER) SORT BY a SORT BY a;

-- BY without SORT
CREATE TABLE t(a INTEGER) BY a;

-- SORT BY inside the parentheses
CREATE TABLE t(a INTEGER SORT BY a);
