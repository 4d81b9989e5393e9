-- A day is written with ten characters
CREATE TABLE t(d DATE);
COPY t FROM 'taken.csv';
SELECT d FROM t;
SELECT EXTRACT(DAY FROM d) AS n FROM t WHERE d = DATE '2024-02-29';

-- what is none, in the second record
-- days that the calendar does not have
COPY t FROM 'february-29.csv';
COPY t FROM 'february-29-of-1900.csv';
COPY t FROM 'month-13.csv';
COPY t FROM 'day-0.csv';
-- before the first year, and behind the last one
COPY t FROM 'year-0.csv';
COPY t FROM 'year-10000.csv';
-- other ways to write days
COPY t FROM 'short-month.csv';
COPY t FROM 'short-year.csv';
COPY t FROM 'slashes.csv';
COPY t FROM 'other-order.csv';
COPY t FROM 'no-lines.csv';
COPY t FROM 'blank-in-front.csv';
COPY t FROM 'blank-behind.csv';
COPY t FROM 'minus.csv';
COPY t FROM 'plus.csv';
COPY t FROM 'with-the-time.csv';
COPY t FROM 'keyword.csv';
-- words, a short one and one of 5,000 bytes
COPY t FROM 'word.csv';
COPY t FROM 'long.csv';
-- digits that are not ASCII
COPY t FROM 'other-digits.csv';

-- nothing of these was stored
SELECT COUNT(*) AS n FROM t;
