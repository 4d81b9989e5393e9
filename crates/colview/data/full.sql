-- A table of at most two rows, with a view on it: whether rows fit is told behind all else that is wrong with them.
CREATE TABLE t(a INTEGER NOT NULL, b TEXT);
INSERT INTO t VALUES (1, 'x');
CREATE VIEW v AS SELECT b, COUNT(*) AS c FROM t GROUP BY b;
INSERT INTO t VALUES (2, 'y'), (3, 'z');
INSERT INTO t VALUES (2, 'y'), (3, 4);
INSERT INTO t VALUES (2, 'y'), (3, 'z'), (4);
INSERT INTO t VALUES (9223372036854775808, 'y'), (3, 'z');
INSERT INTO t VALUES (2, 'y'), (NULL, 'z');
INSERT INTO v VALUES (2, 'y'), (3, 'z');
SELECT a FROM t;
SELECT b, c FROM v;
-- The same of the records of files.
COPY t FROM 'two.csv';
COPY t FROM 'short-record.csv';
COPY t FROM 'no-number.csv';
COPY t FROM 'outside.csv';
COPY t FROM 'null.csv';
SELECT a FROM t;
SELECT b, c FROM v;
-- A full table takes a file without records, and rows again when others are gone.
COPY t FROM 'one.csv';
COPY t FROM 'one.csv';
COPY t FROM 'blank.csv';
SELECT a FROM t;
SELECT b, c FROM v;
DELETE FROM t;
INSERT INTO t VALUES (5, 'y');
INSERT INTO t VALUES (6, NULL);
INSERT INTO t VALUES (7, 'y');
SELECT a FROM t;
SELECT b, c FROM v;
