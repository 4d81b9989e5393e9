-- A field whose value may not be stored, in the first, the middle and the last record of five
CREATE TABLE t(a INTEGER NOT NULL, b TEXT, d DATE);
INSERT INTO t VALUES (0, 'sun', NULL);
CREATE VIEW v AS SELECT b, COUNT(*) AS n, SUM(a) AS s FROM t GROUP BY b;

-- a number outside 64 bits
COPY t FROM 'outside-1.csv';
SELECT COUNT(*) AS n FROM t;
COPY t FROM 'outside-3.csv';
SELECT COUNT(*) AS n FROM t;
COPY t FROM 'outside-5.csv';
SELECT COUNT(*) AS n FROM t;
SELECT a, b, d FROM t;
SELECT b, n, s FROM v;

-- NULL in a NOT NULL column
COPY t FROM 'null-1.csv';
SELECT COUNT(*) AS n FROM t;
COPY t FROM 'null-3.csv';
SELECT COUNT(*) AS n FROM t;
COPY t FROM 'null-5.csv';
SELECT COUNT(*) AS n FROM t;
SELECT a, b, d FROM t;
SELECT b, n, s FROM v;

-- the same, as an empty field
COPY t FROM 'empty-1.csv';
SELECT COUNT(*) AS n FROM t;
COPY t FROM 'empty-3.csv';
SELECT COUNT(*) AS n FROM t;
COPY t FROM 'empty-5.csv';
SELECT COUNT(*) AS n FROM t;
SELECT a, b, d FROM t;
SELECT b, n, s FROM v;

-- a text of 4,097 bytes
COPY t FROM 'long-1.csv';
SELECT COUNT(*) AS n FROM t;
COPY t FROM 'long-3.csv';
SELECT COUNT(*) AS n FROM t;
COPY t FROM 'long-5.csv';
SELECT COUNT(*) AS n FROM t;
SELECT a, b, d FROM t;
SELECT b, n, s FROM v;

-- no such day
COPY t FROM 'day-1.csv';
SELECT COUNT(*) AS n FROM t;
COPY t FROM 'day-3.csv';
SELECT COUNT(*) AS n FROM t;
COPY t FROM 'day-5.csv';
SELECT COUNT(*) AS n FROM t;
SELECT a, b, d FROM t;
SELECT b, n, s FROM v;

-- all five records are good
COPY t FROM 'good.csv';
SELECT a, b, d FROM t;
SELECT b, n, s FROM v;
