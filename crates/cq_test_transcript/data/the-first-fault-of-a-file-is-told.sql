-- The first record with a fault decides, and in it the number of its fields, then the first bad field
CREATE TABLE t(a INTEGER NOT NULL, b TEXT NOT NULL, d DATE NOT NULL, e INTEGER NOT NULL);

-- two faults in the second record
-- a number outside 64 bits, then NULL
COPY t FROM 'outside-null.csv';
-- NULL, then a day that is none
COPY t FROM 'null-day.csv';
-- NULL, then a number outside 64 bits
COPY t FROM 'null-outside.csv';
-- no number, then NULL
COPY t FROM 'number-null.csv';
-- a text of 4,097 bytes, then a day that is none
COPY t FROM 'long-day.csv';
-- a day that is none, then a number outside 64 bits
COPY t FROM 'day-outside.csv';
-- a day behind a backslash, then NULL
COPY t FROM 'backslash-null.csv';
-- NULL, then no UTF-8
COPY t FROM 'null-bytes.csv';
-- no UTF-8, then NULL
COPY t FROM 'bytes-null.csv';
-- a number outside 64 bits, and a field too few
COPY t FROM 'outside-few.csv';
-- NULL, and a field too many
COPY t FROM 'null-many.csv';
-- a text of 4,097 bytes that is no UTF-8
COPY t FROM 'long-bytes.csv';
-- digits beyond 64 bits with a byte that is no UTF-8
COPY t FROM 'digits-bytes.csv';

-- faults in two records
-- a number outside 64 bits, then a field too few
COPY t FROM 'outside-then-few.csv';
-- a field too few, then a number outside 64 bits
COPY t FROM 'few-then-outside.csv';
-- NULL, then no number
COPY t FROM 'null-then-number.csv';
-- no number, then NULL in a field further left
COPY t FROM 'number-then-null.csv';
-- a day that is none, then a text of 4,097 bytes
COPY t FROM 'day-then-long.csv';
-- a text of 4,097 bytes, then a day that is none
COPY t FROM 'long-then-day.csv';
-- no UTF-8, then a field too many
COPY t FROM 'bytes-then-many.csv';

-- records are counted, and not lines
COPY t FROM 'third-line.csv';

-- nothing was stored
SELECT COUNT(*) AS n FROM t;
