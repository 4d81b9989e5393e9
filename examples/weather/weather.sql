-- The weather of Seattle day by day from 2012 to 2015, and the usual temperature of each hour of a year in two cities.
-- The files are made by prepare.py from the Debian package python3-vega-datasets. docs/WEATHER.md walks through the answers.
-- Numbers are tenths: of a millimetre of rain, of a degree, of a metre a second.

CREATE TABLE days(on_day DATE NOT NULL, in_year INTEGER NOT NULL, in_month INTEGER NOT NULL, rain INTEGER NOT NULL,
    warmest INTEGER NOT NULL, coldest INTEGER NOT NULL, wind INTEGER NOT NULL, sky TEXT NOT NULL) SORT BY on_day;
-- Degrees Fahrenheit here, by the local clock.
CREATE TABLE hours(city TEXT NOT NULL, on_day DATE NOT NULL, in_month INTEGER NOT NULL, hour INTEGER NOT NULL,
    temperature INTEGER NOT NULL) SORT BY city, on_day;
CREATE TABLE seasons(in_month INTEGER NOT NULL, season TEXT NOT NULL);
INSERT INTO seasons VALUES (12, 'winter'), (1, 'winter'), (2, 'winter'), (3, 'spring'), (4, 'spring'), (5, 'spring'),
    (6, 'summer'), (7, 'summer'), (8, 'summer'), (9, 'autumn'), (10, 'autumn'), (11, 'autumn');

CREATE VIEW months AS SELECT in_year, in_month, COUNT(*) AS days, SUM(rain) AS rain, MAX(warmest) AS warmest,
    MIN(coldest) AS coldest FROM days GROUP BY in_year, in_month;
CREATE VIEW skies AS SELECT sky, COUNT(*) AS days, SUM(rain) AS rain FROM days GROUP BY sky;
CREATE VIEW by_season AS SELECT in_year, season, COUNT(*) AS days, SUM(rain) AS rain
    FROM days d JOIN seasons s ON d.in_month = s.in_month GROUP BY in_year, season;
CREATE VIEW usual_hours AS SELECT city, hour, COUNT(*) AS days, SUM(temperature) AS total
    FROM hours GROUP BY city, hour;

-- The package's own file has a header line, days with slashes and numbers with a point.
COPY days FROM 'seattle-weather.csv';
COPY days FROM 'days.csv';
COPY hours FROM 'hours.csv';
MOVE days 2000;
MOVE hours 20000;

-- How much did it rain in each year, and on how many days?
SELECT in_year, SUM(rain) AS rain, SUM(days) AS days FROM months GROUP BY in_year;
SELECT in_year, COUNT(*) AS wet FROM days WHERE rain > 0 GROUP BY in_year;
-- The wettest days
SELECT on_day, rain, sky FROM days ORDER BY rain DESC LIMIT 3;
-- The warmest and the coldest months
SELECT in_year, in_month, warmest FROM months ORDER BY warmest DESC LIMIT 2;
SELECT in_year, in_month, coldest FROM months ORDER BY coldest LIMIT 2;
-- What is the sky called, and does it rain then?
SELECT sky, days, rain FROM skies ORDER BY days DESC;
SELECT sky, COUNT(*) AS dry FROM days WHERE rain = 0 GROUP BY sky ORDER BY dry DESC;

-- 2015 arrives. Of the first file the end is missing.
COPY days FROM 'days-2015-cut.csv';
SELECT MAX(on_day) AS last, COUNT(*) AS days FROM days;
COPY days FROM 'days-2015.csv';
SELECT season, days, rain FROM by_season WHERE in_year = 2015;
-- New Year comes by hand, first twice and then with a slip of the pen.
INSERT INTO days VALUES (DATE '2016-01-01', 2016, 1, 0, 39, -44, 20, 'sun');
INSERT INTO days VALUES (DATE '2016-01-01', 2016, 1, 0, 39, -44, 20, 'sun');
SELECT in_year, in_month, days, coldest FROM months WHERE in_year = 2016;
DELETE FROM days WHERE on_day = DATE '2016-01-01';
INSERT INTO days VALUES (DATE '2016-01-01', 2016, 1, 0, 390, -44, 20, 'sun');
UPDATE days SET warmest = 39 WHERE on_day = DATE '2016-01-01' AND warmest = 390;
SELECT in_year, in_month, days, warmest, coldest FROM months WHERE in_year = 2016;
DELETE FROM days WHERE in_year = 2016;
SELECT in_year, in_month, days FROM months WHERE in_year = 2016;
-- From here on fog counts as drizzle, if it rained.
UPDATE days SET sky = 'drizzle' WHERE sky = 'fog' AND rain > 0;
SELECT sky, days, rain FROM skies ORDER BY days DESC;

-- Four years by month, for the picture
SELECT in_year, in_month, days, rain, warmest, coldest FROM months;
-- Does the view agree with its table?
SELECT COUNT(*) AS months, SUM(days) AS days, SUM(rain) AS rain, MAX(warmest) AS warmest FROM months;
SELECT COUNT(*) AS days, SUM(rain) AS rain, MAX(warmest) AS warmest FROM days;
-- Frost, and the widest range in a day
SELECT in_year, COUNT(*) AS frosty FROM days WHERE coldest < 0 GROUP BY in_year;
SELECT on_day, warmest - coldest AS span, warmest, coldest FROM days ORDER BY span DESC LIMIT 3;

-- The hours: which day has not 24 of them?
SELECT city, on_day, COUNT(*) AS hours FROM hours GROUP BY city, on_day HAVING COUNT(*) <> 24;
-- The usual day, for the picture: totals, which the script divides by the days
SELECT city, hour, days, total FROM usual_hours;
-- When is Seattle warmer than San Francisco? Months, and the hours of the day in July
SELECT s.in_month, COUNT(*) AS hours FROM hours s JOIN hours f ON s.on_day = f.on_day AND s.hour = f.hour
    WHERE s.city = 'Seattle' AND f.city = 'San Francisco' AND s.temperature > f.temperature GROUP BY s.in_month;
SELECT s.hour, COUNT(*) AS days FROM hours s JOIN hours f ON s.on_day = f.on_day AND s.hour = f.hour
    WHERE s.city = 'Seattle' AND f.city = 'San Francisco' AND s.temperature > f.temperature AND s.in_month = 7
    GROUP BY s.hour;
