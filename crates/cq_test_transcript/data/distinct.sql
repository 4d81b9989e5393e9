-- Each row of a result once; NULL is the same as NULL here
CREATE TABLE t(a INTEGER, b TEXT);
INSERT INTO t VALUES (1, 'x'), (1, 'x'), (NULL, 'x'), (NULL, 'x'), (1, NULL);
SELECT DISTINCT a, b FROM t;
SELECT DISTINCT a FROM t;
-- the items are compared, and not the rows that they are worked out from
SELECT DISTINCT a + 1 AS c FROM t WHERE b = 'x';
SELECT DISTINCT 7 AS c FROM t;
-- before ORDER BY and LIMIT
SELECT DISTINCT b, a FROM t ORDER BY a DESC LIMIT 2;
-- of a view
CREATE VIEW v AS SELECT a, b, COUNT(*) AS n FROM t GROUP BY a, b;
SELECT DISTINCT n FROM v;
-- of joined rows
SELECT DISTINCT x.b FROM t x JOIN t y ON x.a = y.a;
-- of no row
CREATE TABLE e(a INTEGER);
SELECT DISTINCT a FROM e;
SELECT DISTINCT a FROM t WHERE a > 1;
-- a word of the language, and once
SELECT DISTINCT zz FROM t;
SELECT DISTINCT DISTINCT a FROM t;
SELECT a, DISTINCT b FROM t;
