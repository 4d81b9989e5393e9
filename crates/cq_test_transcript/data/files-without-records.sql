-- A file without records is copied, and brings no row
CREATE TABLE t(a INTEGER NOT NULL);
CREATE TABLE u(b TEXT);
CREATE VIEW v AS SELECT a, COUNT(*) AS n FROM t GROUP BY a;
COPY t FROM 'empty.csv';

-- empty lines are no records
COPY t FROM 'lf.csv';
COPY t FROM 'crlf.csv';
COPY t FROM 'lines.csv';
COPY u FROM 'empty.csv';
COPY u FROM 'lines.csv';
SELECT a FROM t;
SELECT a, n FROM v;
SELECT COUNT(*) AS n FROM u;

-- nor are those between records
COPY t FROM 'between.csv';
COPY t FROM 'bad-behind-lines.csv';
SELECT a, n FROM v;

-- two quotes are a record with an empty field
COPY t FROM 'quotes.csv';
COPY u FROM 'quotes.csv';
SELECT b FROM u;

-- and a blank is one with a field
COPY t FROM 'blank.csv';
COPY u FROM 'blank.csv';
SELECT b FROM u;

-- a comma is a record of two empty fields
COPY u FROM 'comma.csv';
CREATE TABLE w(a INTEGER, b TEXT);
COPY w FROM 'comma.csv';
SELECT a, b FROM w;

-- no file at all
COPY t FROM 'none.csv';
