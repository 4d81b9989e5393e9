-- Fields in quotes, and quotes in fields
CREATE TABLE t(a INTEGER, b TEXT);

-- a comma, doubled quotes and lines inside of quotes
COPY t FROM 'quoted.csv';
SELECT a, b FROM t;
SELECT b FROM t WHERE a = 7;

-- whether a field was quoted makes no difference
DELETE FROM t;
COPY t FROM 'null-and-nothing.csv';
SELECT a, b FROM t;

-- quotes that do not stand around a field
DELETE FROM t;
COPY t FROM 'odd.csv';
SELECT a, b FROM t;

-- a comma inside of quotes is no end of a field
COPY t FROM 'number-with-a-comma.csv';
COPY t FROM 'one-quoted-field.csv';
