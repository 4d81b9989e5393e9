-- Counts of equal rows multiply where they are joined.
CREATE TABLE t(k INTEGER);
INSERT INTO t VALUES (7), (7), (8), (NULL), (NULL);
CREATE TABLE u(k INTEGER);
INSERT INTO u VALUES (7), (7), (7), (8), (NULL);
-- two and three
SELECT t.k FROM t JOIN u ON t.k = u.k;
-- with itself
SELECT x.k FROM t x JOIN t y ON x.k = y.k;
