-- A COPY of 2,500 rows fills two pieces, and 452 rows stand behind them
CREATE TABLE t(n INTEGER, kind TEXT, d DATE) SORT BY kind, n;
COPY t FROM 'stock.csv';
SELECT COUNT(*) AS c, COUNT(n) AS n, SUM(n) AS s, MIN(n), MAX(n), COUNT(d) AS dated, MIN(d), MAX(d) FROM t;
SELECT kind, COUNT(*) AS c, SUM(n) AS s, MIN(d) FROM t WHERE n > -100 AND d >= DATE '2024-03-01' GROUP BY kind ORDER BY kind;
SELECT n, kind, d FROM t WHERE n = 499 OR n = -500 ORDER BY d, kind, n;

-- rows with a mark in either piece and behind them
DELETE FROM t WHERE n = 0 OR d = DATE '2024-02-29';
SELECT COUNT(*) AS c, SUM(n) AS s FROM t;
UPDATE t SET n = n + 1000, d = DATE '2030-01-01' WHERE kind LIKE 'plum%' AND n < -400;
SELECT kind, COUNT(*) AS c, SUM(n) AS s, MAX(d) FROM t GROUP BY kind ORDER BY kind;

-- a move ends inside of a piece, with rows that have a mark on both sides
MOVE t 1000;
SELECT kind, COUNT(*) AS c, SUM(n) AS s, MAX(d) FROM t GROUP BY kind ORDER BY kind;
DELETE FROM t WHERE d IS NULL;
MOVE t 23;
MOVE t 2;
SELECT kind, COUNT(*) AS c, SUM(n) AS s, MIN(d) FROM t GROUP BY kind ORDER BY kind;
SELECT n, kind, d FROM t WHERE n > 590 ORDER BY n, d, kind LIMIT 7;

-- a second COPY fills the piece that was begun
COPY t FROM 'stock.csv';
INSERT INTO t VALUES (9000, 'fig', NULL), (NULL, NULL, DATE '1999-12-31');
DELETE FROM t WHERE n = -500;
SELECT kind, COUNT(*) AS c, SUM(n) AS s, MIN(d), MAX(d) FROM t GROUP BY kind ORDER BY kind;
MOVE t 1100;
MERGE t;
SELECT kind, COUNT(*) AS c, SUM(n) AS s, MIN(d), MAX(d) FROM t GROUP BY kind ORDER BY kind;
SELECT COUNT(*) AS pairs FROM t a JOIN t b ON a.n = b.n AND a.d = b.d;
MOVE t 100000;
SELECT kind, COUNT(*) AS c, SUM(n) AS s, MIN(d), MAX(d) FROM t GROUP BY kind ORDER BY kind;
SELECT n, kind, d FROM t WHERE n >= 499 ORDER BY n, d, kind LIMIT 9;
DELETE FROM t;
SELECT COUNT(*) AS c, SUM(n) AS s FROM t;
