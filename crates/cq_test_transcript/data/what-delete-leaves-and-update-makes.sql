-- What DELETE leaves and what UPDATE makes of four rows, one of them there twice. The rows are put back for each case.
CREATE TABLE t(a INTEGER, b INTEGER);
INSERT INTO t VALUES (1, 2), (NULL, 5), (3, 4), (1, 2);
-- no WHERE
DELETE FROM t;
SELECT a, b FROM t;
DELETE FROM t;
INSERT INTO t VALUES (1, 2), (NULL, 5), (3, 4), (1, 2);
-- a = 1
DELETE FROM t WHERE a = 1;
SELECT a, b FROM t;
DELETE FROM t;
INSERT INTO t VALUES (1, 2), (NULL, 5), (3, 4), (1, 2);
-- a > 1, once Unknown
DELETE FROM t WHERE a > 1;
SELECT a, b FROM t;
DELETE FROM t;
INSERT INTO t VALUES (1, 2), (NULL, 5), (3, 4), (1, 2);
-- NOT a > 1, once Unknown
DELETE FROM t WHERE NOT a > 1;
SELECT a, b FROM t;
DELETE FROM t;
INSERT INTO t VALUES (1, 2), (NULL, 5), (3, 4), (1, 2);
-- a = NULL
DELETE FROM t WHERE a = NULL;
SELECT a, b FROM t;
-- a IS NULL
DELETE FROM t WHERE a IS NULL;
SELECT a, b FROM t;
DELETE FROM t;
INSERT INTO t VALUES (1, 2), (NULL, 5), (3, 4), (1, 2);
-- a = b, b = a
UPDATE t SET a = b, b = a;
SELECT a, b FROM t;
DELETE FROM t;
INSERT INTO t VALUES (1, 2), (NULL, 5), (3, 4), (1, 2);
-- a = b, b = a where a = 1
UPDATE t SET a = b, b = a WHERE a = 1;
SELECT a, b FROM t;
DELETE FROM t;
INSERT INTO t VALUES (1, 2), (NULL, 5), (3, 4), (1, 2);
-- b = a + 1, a = b + 1
UPDATE t SET b = a + 1, a = b + 1;
SELECT a, b FROM t;
DELETE FROM t;
INSERT INTO t VALUES (1, 2), (NULL, 5), (3, 4), (1, 2);
-- a = 7 where a > 1, once Unknown
UPDATE t SET a = 7 WHERE a > 1;
SELECT a, b FROM t;
DELETE FROM t;
INSERT INTO t VALUES (1, 2), (NULL, 5), (3, 4), (1, 2);
-- b = NULL
UPDATE t SET b = NULL;
SELECT a, b FROM t;
DELETE FROM t;
INSERT INTO t VALUES (1, 2), (NULL, 5), (3, 4), (1, 2);
-- b = b
UPDATE t SET b = b;
SELECT a, b FROM t;
-- wide in rows that WHERE does not choose
UPDATE t SET b = a + 9223372036854775807 WHERE a IS NULL;
SELECT a, b FROM t;
DELETE FROM t;
INSERT INTO t VALUES (1, 2), (NULL, 5), (3, 4), (1, 2);
-- a wide value in rows that WHERE chooses, in all of them, and above 2^127 - 1 by its width
UPDATE t SET b = a + 9223372036854775807 WHERE a = 1;
UPDATE t SET b = a + 9223372036854775807;
UPDATE t SET b = a + 170141183460469231731687303715884105727 WHERE a IS NULL;
SELECT a, b FROM t;
