-- The clocks of the world from 2010 to 2024: which zones turned them, when, how far, and who has stopped.
-- The files are made by prepare.py from the time zone database. docs/REPORT.md walks through the answers.
-- Clocks are told as minutes ahead of UTC.

CREATE TABLE countries(code TEXT NOT NULL, country TEXT NOT NULL);
-- Minutes of arc north of the equator, 60 for a degree. The mean sun's time. The clock on 1 January and 1 July 2024.
CREATE TABLE zones(zone TEXT NOT NULL, code TEXT NOT NULL, region TEXT NOT NULL, north INTEGER NOT NULL,
    sun INTEGER NOT NULL, january INTEGER NOT NULL, july INTEGER NOT NULL, places TEXT);
-- Each time that a zone's clock was turned: the day and the minute of the day that it showed before.
CREATE TABLE changes(zone TEXT NOT NULL, changed_on DATE NOT NULL, at_minute INTEGER NOT NULL,
    before INTEGER NOT NULL, after INTEGER NOT NULL, name TEXT);

CREATE VIEW regions AS SELECT region, COUNT(*) AS zones, COUNT(places) AS described FROM zones GROUP BY region;
CREATE VIEW clocks AS SELECT zone, COUNT(*) AS changes, SUM(after - before) AS moved FROM changes GROUP BY zone;
CREATE VIEW days AS SELECT changed_on, EXTRACT(YEAR FROM changed_on) AS in_year,
    EXTRACT(MONTH FROM changed_on) AS in_month, COUNT(*) AS changes FROM changes GROUP BY changed_on;

COPY countries FROM 'countries.csv';
-- Here a field with a comma in it is not quoted.
COPY zones FROM 'zones-unquoted.csv';
SELECT COUNT(*) AS zones FROM zones;
COPY zones FROM 'zones.csv';
COPY changes FROM 'changes.csv';

-- How many zones are there, and how many of them have a description?
SELECT region, zones, described FROM regions ORDER BY zones DESC;
-- Which countries have the most?
SELECT country, COUNT(*) AS zones FROM zones z JOIN countries c ON z.code = c.code
    GROUP BY country HAVING COUNT(*) >= 10 ORDER BY zones DESC;
-- In how many zones did the clock of July 2024 differ from that of January?
SELECT r.region, r.zones, COUNT(*) AS differ FROM zones z JOIN regions r ON z.region = r.region
    WHERE january <> july GROUP BY r.region, zones ORDER BY differ DESC;
-- In the north summer time is ahead. Where was January ahead?
SELECT zone, country, january, july FROM zones z JOIN countries c ON z.code = c.code
    WHERE north > 0 AND january > july;
-- How near to the equator is there summer time?
SELECT zone, country, north FROM zones z JOIN countries c ON z.code = c.code
    WHERE north > 0 AND january < july ORDER BY north LIMIT 3;
-- Where is the clock farthest ahead of the sun? Zones whose date is another one than the sun's are left out.
SELECT zone, country, july - sun AS ahead FROM zones z JOIN countries c ON z.code = c.code
    WHERE july - sun < 720 ORDER BY ahead DESC LIMIT 5;

-- How many of the zones turned their clocks at all?
SELECT COUNT(*) AS zones, SUM(changes) AS changes FROM clocks;
-- How often was a clock turned in each year, on how many days, and how often on the busiest one?
SELECT in_year, SUM(changes) AS changes, COUNT(*) AS days, MAX(changes) AS busiest FROM days GROUP BY in_year;
-- On which days were the most clocks turned?
SELECT changed_on, changes FROM days ORDER BY changes DESC LIMIT 3;
-- In which months?
SELECT in_month, SUM(changes) AS changes FROM days GROUP BY in_month ORDER BY changes DESC LIMIT 4;
-- At what time?
SELECT at_minute, COUNT(*) AS changes FROM changes GROUP BY at_minute HAVING COUNT(*) > 100 ORDER BY changes DESC;
-- What are the times called to which they were turned? Many have no name.
SELECT name, COUNT(*) AS changes FROM changes GROUP BY name ORDER BY changes DESC LIMIT 4;
-- Who turns by half an hour?
SELECT zone, COUNT(*) AS changes, MAX(changed_on) AS last FROM changes
    WHERE after - before IN (-30, 30) GROUP BY zone;
-- Whose clock was ever moved by more than three hours at once?
SELECT zone, changed_on, before, after FROM changes WHERE after - before NOT BETWEEN -180 AND 180;
-- Which countries turned their clocks ten times or more, and not once in 2024?
SELECT country, COUNT(*) AS changes, MAX(changed_on) AS last FROM countries c JOIN zones z ON z.code = c.code
    JOIN changes x ON x.zone = z.zone GROUP BY country
    HAVING COUNT(*) >= 10 AND MAX(changed_on) < DATE '2024-01-01' ORDER BY last DESC;
-- Where do three zones or more have another time than fifteen years before? January is compared with January.
SELECT country, COUNT(*) AS zones, MIN(moved) AS least, MAX(moved) AS most FROM clocks x
    JOIN zones z ON x.zone = z.zone JOIN countries c ON z.code = c.code
    WHERE moved <> 0 GROUP BY country HAVING COUNT(*) >= 3 ORDER BY zones DESC;

-- Some islands of oceans are to count as Europe.
UPDATE zones SET region = 'Europe' WHERE region IN ('Arctic', 'Atlantic') AND code IN ('ES', 'FO', 'IS', 'PT', 'SJ');
SELECT region, zones, described FROM regions ORDER BY zones DESC;
-- What if Europe's clocks had not been turned any more from 2022 on?
SELECT zone, changes, moved FROM clocks WHERE zone IN ('Asia/Nicosia', 'Europe/Berlin');
DELETE FROM changes WHERE zone LIKE 'Europe/%' AND changed_on >= DATE '2022-01-01';
SELECT zone, changes, moved FROM clocks WHERE zone IN ('Asia/Nicosia', 'Europe/Berlin');
SELECT in_year, SUM(changes) AS changes, COUNT(*) AS days, MAX(changes) AS busiest FROM days
    WHERE in_year >= 2021 GROUP BY in_year;
