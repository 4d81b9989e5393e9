-- A field that is not UTF-8 is refused in a column of each type, whatever else it is
CREATE TABLE t(a INTEGER, b TEXT, d DATE);

-- a byte that begins nothing
COPY t FROM 'alone.csv';
-- half a character
COPY t FROM 'half.csv';
-- a character that goes on
COPY t FROM 'goes-on.csv';
-- a character that is written too long
COPY t FROM 'too-long.csv';
-- half of a pair
COPY t FROM 'surrogate.csv';
-- a character above the last one
COPY t FROM 'above.csv';
-- Latin 1
COPY t FROM 'latin.csv';
-- in a number, in a date, behind NULL, and in quotes
COPY t FROM 'in-a-number.csv';
COPY t FROM 'in-a-date.csv';
COPY t FROM 'behind-null.csv';
COPY t FROM 'in-quotes.csv';

-- a comma in the middle of a character
COPY t FROM 'two-halves.csv';

-- characters of one to four bytes
COPY t FROM 'characters.csv';
SELECT a, b FROM t WHERE b LIKE '_';
