-- Digits, or a minus and digits, are a number, however many they are
CREATE TABLE t(a INTEGER);
COPY t FROM 'taken.csv';
SELECT a, COUNT(*) AS n FROM t GROUP BY a;

-- nothing else is, in the second record
-- a plus
COPY t FROM 'plus.csv';
-- a blank in front or behind
COPY t FROM 'blank-in-front.csv';
COPY t FROM 'blank-behind.csv';
-- a minus alone, two of them, and one behind
COPY t FROM 'minus.csv';
COPY t FROM 'two-minuses.csv';
COPY t FROM 'minus-behind.csv';
-- a plus and a minus
COPY t FROM 'plus-minus.csv';
COPY t FROM 'minus-blank.csv';
-- other ways to write numbers
COPY t FROM 'point.csv';
COPY t FROM 'exponent.csv';
COPY t FROM 'hexadecimal.csv';
COPY t FROM 'grouped.csv';
COPY t FROM 'letter-behind.csv';
COPY t FROM 'quotes.csv';
-- digits and minuses that are not ASCII
COPY t FROM 'other-digit.csv';
COPY t FROM 'other-minus.csv';
-- words
COPY t FROM 'word.csv';
COPY t FROM 'null-as-a-word.csv';

-- numbers that 64 bits do not hold
-- one beyond each end
COPY t FROM 'one-above.csv';
COPY t FROM 'one-below.csv';
-- 2^64 + 7 and 2^128 + 7, which are 7 where the upper bits are lost
COPY t FROM 'two-to-64.csv';
COPY t FROM 'two-to-128.csv';
-- 40 digits
COPY t FROM 'forty-digits.csv';
COPY t FROM 'minus-forty-digits.csv';
-- zeros in front of them
COPY t FROM 'zeros-and-digits.csv';

-- nothing of these was stored
SELECT COUNT(*) AS n FROM t;
