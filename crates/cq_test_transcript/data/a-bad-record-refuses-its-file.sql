-- A record that the table's columns do not take, as the first, the middle and the last one of five
CREATE TABLE t(a INTEGER NOT NULL, b TEXT, d DATE);
INSERT INTO t VALUES (0, 'sun', NULL);
CREATE VIEW v AS SELECT b, COUNT(*) AS n, SUM(a) AS s FROM t GROUP BY b;

-- a field too few
COPY t FROM 'few-1.csv';
SELECT COUNT(*) AS n FROM t;
COPY t FROM 'few-3.csv';
SELECT COUNT(*) AS n FROM t;
COPY t FROM 'few-5.csv';
SELECT COUNT(*) AS n FROM t;
SELECT a, b, d FROM t;
SELECT b, n, s FROM v;

-- a field too many
COPY t FROM 'many-1.csv';
SELECT COUNT(*) AS n FROM t;
COPY t FROM 'many-3.csv';
SELECT COUNT(*) AS n FROM t;
COPY t FROM 'many-5.csv';
SELECT COUNT(*) AS n FROM t;
SELECT a, b, d FROM t;
SELECT b, n, s FROM v;

-- no number
COPY t FROM 'number-1.csv';
SELECT COUNT(*) AS n FROM t;
COPY t FROM 'number-3.csv';
SELECT COUNT(*) AS n FROM t;
COPY t FROM 'number-5.csv';
SELECT COUNT(*) AS n FROM t;
SELECT a, b, d FROM t;
SELECT b, n, s FROM v;

-- no UTF-8 in a text
COPY t FROM 'bytes-1.csv';
SELECT COUNT(*) AS n FROM t;
COPY t FROM 'bytes-3.csv';
SELECT COUNT(*) AS n FROM t;
COPY t FROM 'bytes-5.csv';
SELECT COUNT(*) AS n FROM t;
SELECT a, b, d FROM t;
SELECT b, n, s FROM v;

-- a day behind a backslash
COPY t FROM 'backslash-1.csv';
SELECT COUNT(*) AS n FROM t;
COPY t FROM 'backslash-3.csv';
SELECT COUNT(*) AS n FROM t;
COPY t FROM 'backslash-5.csv';
SELECT COUNT(*) AS n FROM t;
SELECT a, b, d FROM t;
SELECT b, n, s FROM v;

-- all five records are good
COPY t FROM 'good.csv';
SELECT a, b, d FROM t;
SELECT b, n, s FROM v;
