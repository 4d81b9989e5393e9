-- A text of at most 4,096 bytes is stored. A backslash that it loses does not count
CREATE TABLE t(b TEXT);
COPY t FROM 'plain.csv';
COPY t FROM 'behind-two-backslashes.csv';
COPY t FROM 'behind-one-backslash.csv';
COPY t FROM 'two-bytes-each.csv';
COPY t FROM 'quotes.csv';

-- by their beginnings and ends
SELECT COUNT(*) AS n FROM t WHERE b LIKE '%xx';
SELECT COUNT(*) AS n FROM t WHERE b LIKE '\x%';
SELECT COUNT(*) AS n FROM t WHERE b LIKE 'éé%éé';
SELECT COUNT(*) AS n FROM t WHERE b LIKE '""%""';

-- one byte more
COPY t FROM 'plain-and-a-byte.csv';
COPY t FROM 'behind-two-backslashes-and-a-byte.csv';
COPY t FROM 'behind-one-backslash-and-a-byte.csv';
COPY t FROM 'two-bytes-each-and-a-byte.csv';

-- 100,000 bytes
COPY t FROM 'far-longer.csv';
SELECT COUNT(*) AS n FROM t;
