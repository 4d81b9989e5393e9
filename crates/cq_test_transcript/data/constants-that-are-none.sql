-- What an INSERT does not take as a constant

-- a plus sign
INSERT INTO t VALUES (+1);

-- a sign alone
INSERT INTO t VALUES (-);

-- two signs
INSERT INTO t VALUES (- - 1);

-- a name
INSERT INTO t VALUES (a);

-- a sign before NULL
INSERT INTO t VALUES (- NULL);

-- two NULLs
INSERT INTO t VALUES (NULL NULL);

-- NOT NULL
INSERT INTO t VALUES (NOT NULL);

-- a sign before a text
INSERT INTO t VALUES (- 'x');

-- two texts
INSERT INTO t VALUES ('x' 'y');

-- a type before a text
INSERT INTO t VALUES (TEXT 'x');

-- a type before a number
INSERT INTO t VALUES (INTEGER 5);

-- DATE alone
INSERT INTO t VALUES (DATE);

-- DATE before a number
INSERT INTO t VALUES (DATE 5);

-- DATE before NULL
INSERT INTO t VALUES (DATE NULL);

-- DATE twice
INSERT INTO t VALUES (DATE DATE '2024-01-01');

-- a sign before a day
INSERT INTO t VALUES (- DATE '2024-01-01');

-- DATE behind a text
INSERT INTO t VALUES ('2024-01-01' DATE);
