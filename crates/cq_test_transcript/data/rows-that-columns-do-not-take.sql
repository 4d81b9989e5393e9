-- What columns ask of a row
CREATE TABLE t(a INTEGER NOT NULL, b TEXT, d DATE NOT NULL);

-- a row that is too short
INSERT INTO t VALUES (1, 'x');

-- a text in the place of a number
INSERT INTO t VALUES ('x', 'y', DATE '2024-01-01');

-- a number outside 64 bits before a wrong type
INSERT INTO t VALUES (9223372036854775808, 5, NULL);

-- the least number is stored, a wrong type behind it is told
INSERT INTO t VALUES (-9223372036854775808, 5, NULL);

-- NULL in a NOT NULL column before a wrong type
INSERT INTO t VALUES (NULL, 5, DATE '0000-01-01');

-- a day in the place of a text
INSERT INTO t VALUES (1, DATE 'soon', NULL);

-- a text in the place of a day
INSERT INTO t VALUES (1, 'x', '2024-01-01');

-- NULL in a NOT NULL column
INSERT INTO t VALUES (1, 'x', NULL);

-- the 29th of February of a common year
INSERT INTO t VALUES (1, 'x', DATE '2023-02-29');

-- a month of one digit
INSERT INTO t VALUES (1, 'x', DATE '2024-1-01');

-- the year 0
INSERT INTO t VALUES (1, 'x', DATE '0000-12-31');

-- a bad day in the second row
INSERT INTO t VALUES (1, NULL, DATE '2024-02-29'), (2, 'y', DATE '1900-02-29');

-- NULL in the second row
INSERT INTO t VALUES (1, 'x', DATE '1970-01-01'), (2, NULL, NULL);

-- a second row that is too short
INSERT INTO t VALUES (1, 'x', DATE '1970-01-01'), (2);

-- no row has come
SELECT a FROM t;
