-- COPY, a name, FROM and a text
CREATE TABLE t(a INTEGER);

-- no text
COPY t FROM f;
COPY t FROM "f.csv";
COPY t FROM NULL;
COPY t FROM 1;
COPY t FROM DATE '2024-02-29';
COPY t FROM;

-- several texts
COPY t FROM 'f.csv' 'f.csv';
COPY t FROM 'f.csv', 'f.csv';
COPY t FROM ('f.csv');

-- no name, or no FROM
COPY FROM 'f.csv';
COPY 't' FROM 'f.csv';
COPY t 'f.csv';
COPY t TO 'f.csv';
COPY INTO t FROM 'f.csv';
COPY TABLE t FROM 'f.csv';

-- more than that
COPY t(a) FROM 'f.csv';
COPY t FROM 'f.csv' WHERE a = 1;
COPY (SELECT a FROM t) FROM 'f.csv';

-- COPY is no name
CREATE TABLE copy(a INTEGER);

-- letters of any case, no blanks, and a comment with a semicolon
COPY T FROM 'f.csv';
cOPy t fROm'f.csv';
COPY -- the table; its name
t
FROM
-- a file
'f.csv' -- which is there
;
SELECT a FROM t;
