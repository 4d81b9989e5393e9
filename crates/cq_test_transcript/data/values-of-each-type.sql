-- Values of each type, listed in the order of their types, with NULL last
CREATE TABLE t(a INTEGER, b TEXT, d DATE) SORT BY d, a;
INSERT INTO t VALUES (NULL, 'x', DATE '2024-02-29'), (1, NULL, NULL), (1, 'a,b', DATE '0001-01-01'),
    (-5, '', DATE '9999-12-31');
SELECT a, b, d FROM t;
SELECT d, a FROM t;
SELECT d FROM t WHERE a >= 1;
