-- A byte order mark in front of a file is no part of its first field
CREATE TABLE t(a INTEGER);
CREATE TABLE u(b TEXT);
COPY t FROM 'number.csv';
SELECT a FROM t;
COPY u FROM 'quoted.csv';
COPY u FROM 'null.csv';
SELECT b FROM u;

-- the mark alone
COPY t FROM 'alone.csv';

-- anywhere else it is a character like others
COPY t FROM 'second-number.csv';
COPY t FROM 'two-marks.csv';
COPY u FROM 'second-text.csv';
SELECT b FROM u WHERE b LIKE '___';
SELECT b FROM u WHERE b LIKE '____';

-- half a mark, and the marks of other encodings, are no UTF-8
COPY t FROM 'half.csv';
COPY u FROM 'half.csv';
COPY u FROM 'little-endian.csv';
COPY u FROM 'big-endian.csv';
