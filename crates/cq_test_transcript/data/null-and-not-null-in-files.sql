-- Columns that take NULL, and columns that do not
CREATE TABLE t(a INTEGER, b TEXT, d DATE);
CREATE TABLE u(a INTEGER NOT NULL, b TEXT NOT NULL, d DATE NOT NULL);
COPY t FROM 'null.csv';
COPY t FROM 'empty.csv';
SELECT a, b, d FROM t;

-- each column by itself
COPY u FROM 'null-number.csv';
COPY u FROM 'null-text.csv';
COPY u FROM 'null-day.csv';
COPY u FROM 'empty-number.csv';
COPY u FROM 'empty-day.csv';

-- the empty text is not NULL, nor is the text \N
COPY u FROM 'empty-text.csv';
COPY u FROM 'text-like-null.csv';
SELECT a, b, d FROM u;
