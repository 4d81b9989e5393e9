-- One key for each of 0, 1, 1,023, 1,024, 1,025 and 5,000 rows of the other table, and NULL in both
CREATE TABLE k(key INTEGER, name TEXT);
CREATE TABLE m(key INTEGER, x INTEGER);
COPY k FROM 'keys.csv';
COPY m FROM 'rows.csv';

-- few rows on the left
SELECT k.key, COUNT(*) AS n, SUM(x) AS s, MIN(x), MAX(x) FROM k JOIN m ON k.key = m.key GROUP BY k.key;
-- many rows on the left
SELECT name, COUNT(*) AS n, SUM(x) AS s FROM m JOIN k ON m.key = k.key GROUP BY name ORDER BY n DESC;
-- the pairs themselves, the last of them and the first
SELECT m.x, name FROM k JOIN m ON k.key = m.key WHERE k.key >= 1024 ORDER BY x DESC LIMIT 4;
SELECT m.x, name FROM m JOIN k ON m.key = k.key WHERE k.key <> 5000 LIMIT 3;
-- through a third table
SELECT a.name, COUNT(*) AS n FROM k a JOIN m ON a.key = m.key JOIN k b ON m.key = b.key WHERE b.key > 1 GROUP BY a.name;
-- a key that meets another column
SELECT COUNT(*) AS n, SUM(m.x) AS s FROM k JOIN m ON k.key = m.x WHERE k.key = 0 AND m.key = 1;
-- the rows without a key meet nothing
SELECT COUNT(*) AS n FROM k JOIN m ON k.key = m.key WHERE k.key IS NULL;
