-- One field, in columns of each type
CREATE TABLE i(a INTEGER);
CREATE TABLE x(b TEXT);
CREATE TABLE d(c DATE);

-- NULL as it is printed
COPY i FROM 'null.csv';
COPY x FROM 'null.csv';
COPY d FROM 'null.csv';
-- the same in quotes
COPY i FROM 'null-in-quotes.csv';
COPY x FROM 'null-in-quotes.csv';
COPY d FROM 'null-in-quotes.csv';
-- an empty field
COPY i FROM 'empty.csv';
COPY x FROM 'empty.csv';
COPY d FROM 'empty.csv';
-- the text \N
COPY i FROM 'two-backslashes-and-N.csv';
COPY x FROM 'two-backslashes-and-N.csv';
COPY d FROM 'two-backslashes-and-N.csv';
-- NULL with a blank behind it
COPY i FROM 'null-and-blank.csv';
COPY x FROM 'null-and-blank.csv';
COPY d FROM 'null-and-blank.csv';
-- a small letter
COPY i FROM 'backslash-and-n.csv';
COPY x FROM 'backslash-and-n.csv';
COPY d FROM 'backslash-and-n.csv';
-- one backslash in front
COPY i FROM 'backslash-and-x.csv';
COPY x FROM 'backslash-and-x.csv';
COPY d FROM 'backslash-and-x.csv';
-- two of them
COPY i FROM 'two-backslashes-and-x.csv';
COPY x FROM 'two-backslashes-and-x.csv';
COPY d FROM 'two-backslashes-and-x.csv';
-- three of them
COPY i FROM 'three-backslashes-and-x.csv';
COPY x FROM 'three-backslashes-and-x.csv';
COPY d FROM 'three-backslashes-and-x.csv';
-- a backslash alone
COPY i FROM 'backslash.csv';
COPY x FROM 'backslash.csv';
COPY d FROM 'backslash.csv';
-- two of them alone
COPY i FROM 'two-backslashes.csv';
COPY x FROM 'two-backslashes.csv';
COPY d FROM 'two-backslashes.csv';
-- backslashes that do not stand in front
COPY i FROM 'x-and-two-backslashes.csv';
COPY x FROM 'x-and-two-backslashes.csv';
COPY d FROM 'x-and-two-backslashes.csv';
-- a number
COPY i FROM 'number.csv';
COPY x FROM 'number.csv';
COPY d FROM 'number.csv';
-- a number behind a backslash
COPY i FROM 'backslash-and-number.csv';
COPY x FROM 'backslash-and-number.csv';
COPY d FROM 'backslash-and-number.csv';
-- a number outside 64 bits
COPY i FROM 'number-outside.csv';
COPY x FROM 'number-outside.csv';
COPY d FROM 'number-outside.csv';
-- a day
COPY i FROM 'day.csv';
COPY x FROM 'day.csv';
COPY d FROM 'day.csv';
-- a day behind a backslash
COPY i FROM 'backslash-and-day.csv';
COPY x FROM 'backslash-and-day.csv';
COPY d FROM 'backslash-and-day.csv';
-- a day that there is not
COPY i FROM 'no-day.csv';
COPY x FROM 'no-day.csv';
COPY d FROM 'no-day.csv';
-- a character past ASCII
COPY i FROM 'character.csv';
COPY x FROM 'character.csv';
COPY d FROM 'character.csv';
-- the word
COPY i FROM 'null-as-a-word.csv';
COPY x FROM 'null-as-a-word.csv';
COPY d FROM 'null-as-a-word.csv';

-- what they are
SELECT a FROM i;
SELECT b FROM x;
SELECT c FROM d;
