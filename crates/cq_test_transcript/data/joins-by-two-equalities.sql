-- Every equality behind ON has to hold.
CREATE TABLE t(a INTEGER, b INTEGER);
INSERT INTO t VALUES (1, 2), (1, 3), (NULL, 2), (1, NULL);
CREATE TABLE u(a INTEGER, b INTEGER);
INSERT INTO u VALUES (1, 2), (2, 3), (NULL, 2), (1, NULL);
-- a = a AND b = b
SELECT t.a, t.b, u.a, u.b FROM t JOIN u ON t.a = u.a AND t.b = u.b;
-- a = a AND b = a
SELECT t.a FROM t JOIN u ON t.a = u.a AND t.b = u.a;
-- b = b AND b = a
SELECT t.a FROM t JOIN u ON t.b = u.b AND t.b = u.a;
