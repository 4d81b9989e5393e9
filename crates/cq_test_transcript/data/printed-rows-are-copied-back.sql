-- The lines of a result below its header, as a file, give the same rows
CREATE TABLE t(a INTEGER, b TEXT, d DATE);
CREATE TABLE u(a INTEGER, b TEXT, d DATE);
INSERT INTO t VALUES (-9223372036854775808, '', DATE '0001-01-01'), (0, 'a,b', NULL), (0, 'a,b', NULL),
    (1, 'he said "no"', DATE '2024-02-29'), (2, '"', NULL), (3, '\N', NULL), (4, '\', NULL), (5, '\\x', NULL), (6, '
', NULL), (7, ' ', NULL), (8, 'é€😀', NULL), (9223372036854775807, 'NULL', DATE '9999-12-31'), (NULL, NULL, NULL);
SELECT a, b, d FROM t;
COPY u FROM 'printed.csv';
SELECT a, b, d FROM u;

-- one column, in which the empty text has two quotes
CREATE TABLE x(b TEXT);
COPY x FROM 'one-column.csv';
SELECT b FROM x;
