-- LIKE, character by character: a percent is any run of characters, an underscore is any one, and all others stand for
-- themselves. Each question names a text and keeps it.
CREATE TABLE texts(word TEXT);
INSERT INTO texts VALUES (''), ('a'), ('abc'), ('ab'), ('axbxc'), ('axbxcx'), ('aab'), ('abab'), ('ababc'),
    ('a,b'), ('ABC'), ('%'), (' a'), ('ä'), ('語'), ('🦀'), ('äb'), ('日本語'), ('a\b'), ('a%b'), ('a\xyb'), ('a_b'),
    ('\');
-- percent is any run and underscore any character
-- '' is like ''
SELECT word FROM texts WHERE word = '' AND word LIKE '';
-- 'a' is not like ''
SELECT word FROM texts WHERE word = 'a' AND word NOT LIKE '';
-- '' is like '%'
SELECT word FROM texts WHERE word = '' AND word LIKE '%';
-- '' is like '%%'
SELECT word FROM texts WHERE word = '' AND word LIKE '%%';
-- 'abc' is like '%%'
SELECT word FROM texts WHERE word = 'abc' AND word LIKE '%%';
-- '' is not like '_'
SELECT word FROM texts WHERE word = '' AND word NOT LIKE '_';
-- 'abc' is like 'abc'
SELECT word FROM texts WHERE word = 'abc' AND word LIKE 'abc';
-- 'abc' is not like 'ab'
SELECT word FROM texts WHERE word = 'abc' AND word NOT LIKE 'ab';
-- 'abc' is not like 'abcd'
SELECT word FROM texts WHERE word = 'abc' AND word NOT LIKE 'abcd';
-- 'abc' is like 'a%'
SELECT word FROM texts WHERE word = 'abc' AND word LIKE 'a%';
-- 'abc' is like '%c'
SELECT word FROM texts WHERE word = 'abc' AND word LIKE '%c';
-- 'abc' is like '%b%'
SELECT word FROM texts WHERE word = 'abc' AND word LIKE '%b%';
-- 'abc' is not like '%d%'
SELECT word FROM texts WHERE word = 'abc' AND word NOT LIKE '%d%';
-- 'abc' is like 'a_c'
SELECT word FROM texts WHERE word = 'abc' AND word LIKE 'a_c';
-- 'abc' is not like 'a_'
SELECT word FROM texts WHERE word = 'abc' AND word NOT LIKE 'a_';
-- 'abc' is like '___'
SELECT word FROM texts WHERE word = 'abc' AND word LIKE '___';
-- 'abc' is not like '____'
SELECT word FROM texts WHERE word = 'abc' AND word NOT LIKE '____';
-- 'a' is not like '_%_'
SELECT word FROM texts WHERE word = 'a' AND word NOT LIKE '_%_';
-- 'ab' is like '_%_'
SELECT word FROM texts WHERE word = 'ab' AND word LIKE '_%_';
-- 'axbxc' is like 'a%b%c'
SELECT word FROM texts WHERE word = 'axbxc' AND word LIKE 'a%b%c';
-- 'axbxcx' is not like 'a%b%c'
SELECT word FROM texts WHERE word = 'axbxcx' AND word NOT LIKE 'a%b%c';
-- 'aab' is like 'a%b'
SELECT word FROM texts WHERE word = 'aab' AND word LIKE 'a%b';
-- 'abab' is like '%ab'
SELECT word FROM texts WHERE word = 'abab' AND word LIKE '%ab';
-- 'ababc' is not like '%ab'
SELECT word FROM texts WHERE word = 'ababc' AND word NOT LIKE '%ab';
-- 'a,b' is like '_,%'
SELECT word FROM texts WHERE word = 'a,b' AND word LIKE '_,%';
-- 'ABC' is not like 'abc'
SELECT word FROM texts WHERE word = 'ABC' AND word NOT LIKE 'abc';
-- '%' is like '_'
SELECT word FROM texts WHERE word = '%' AND word LIKE '_';
-- ' a' is not like 'a'
SELECT word FROM texts WHERE word = ' a' AND word NOT LIKE 'a';
-- an underscore is one character of any length
-- 'ä' is like '_'
SELECT word FROM texts WHERE word = 'ä' AND word LIKE '_';
-- 'ä' is not like '__'
SELECT word FROM texts WHERE word = 'ä' AND word NOT LIKE '__';
-- '語' is like '_'
SELECT word FROM texts WHERE word = '語' AND word LIKE '_';
-- '語' is not like '___'
SELECT word FROM texts WHERE word = '語' AND word NOT LIKE '___';
-- '🦀' is like '_'
SELECT word FROM texts WHERE word = '🦀' AND word LIKE '_';
-- '🦀' is not like '____'
SELECT word FROM texts WHERE word = '🦀' AND word NOT LIKE '____';
-- 'äb' is like '_b'
SELECT word FROM texts WHERE word = 'äb' AND word LIKE '_b';
-- '日本語' is like '__語'
SELECT word FROM texts WHERE word = '日本語' AND word LIKE '__語';
-- '日本語' is like '%本%'
SELECT word FROM texts WHERE word = '日本語' AND word LIKE '%本%';
-- '日本語' is not like '日本_語'
SELECT word FROM texts WHERE word = '日本語' AND word NOT LIKE '日本_語';
-- 'ä' is not like 'a'
SELECT word FROM texts WHERE word = 'ä' AND word NOT LIKE 'a';
-- a backslash is an ordinary character
-- 'a\b' is like 'a\b'
SELECT word FROM texts WHERE word = 'a\b' AND word LIKE 'a\b';
-- 'a%b' is not like 'a\%b'
SELECT word FROM texts WHERE word = 'a%b' AND word NOT LIKE 'a\%b';
-- 'a\b' is like 'a\%b'
SELECT word FROM texts WHERE word = 'a\b' AND word LIKE 'a\%b';
-- 'a\xyb' is like 'a\%b'
SELECT word FROM texts WHERE word = 'a\xyb' AND word LIKE 'a\%b';
-- 'a_b' is not like 'a\_b'
SELECT word FROM texts WHERE word = 'a_b' AND word NOT LIKE 'a\_b';
-- '\' is like '_'
SELECT word FROM texts WHERE word = '\' AND word LIKE '_';
