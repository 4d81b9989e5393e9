-- Aggregates over texts, days and numbers, with a NULL in each column.
CREATE TABLE t(b TEXT, d DATE, a INTEGER);
INSERT INTO t VALUES ('b', DATE '2024-02-29', -5), ('B', NULL, 3), ('ä', DATE '0001-01-01', NULL),
    (NULL, DATE '9999-12-31', 0), ('ab', DATE '1969-12-31', -5);
-- MIN
SELECT MIN(b), MIN(d), MIN(a) FROM t;
-- MAX
SELECT MAX(b), MAX(d), MAX(a) FROM t;
-- COUNT
SELECT COUNT(b), COUNT(d), COUNT(a) FROM t;
-- SUM
SELECT SUM(a) FROM t;
