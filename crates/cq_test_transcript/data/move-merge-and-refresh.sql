-- no answer changes by them
CREATE TABLE t(a INTEGER);
INSERT INTO t VALUES (7), (7), (NULL);
CREATE VIEW v AS SELECT a, COUNT(*) AS n FROM t GROUP BY a;
MOVE t 2;
SELECT a FROM t;
MERGE t;
INSERT INTO t VALUES (8);
REFRESH v 1;
REFRESH v 5;
SELECT a, n FROM v;
-- by zero, and by more than there is
MOVE t 0;
MOVE t 340282366920938463463374607431768211456;
REFRESH v 0;
REFRESH v 340282366920938463463374607431768211456;
SELECT a FROM t;
-- views are not moved, and tables not refreshed
MOVE v 1;
MERGE v;
REFRESH t 1;
-- names that are not there
MOVE nope 1;
MERGE nope;
REFRESH nope 1;
-- no number, and a number with a sign
MOVE t;
MOVE t -1;
MERGE t 1;
REFRESH v;
-- a table and its view after all of it
SELECT a, n FROM v;
