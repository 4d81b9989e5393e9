-- The last questions of worked rows of later stages, and of one that needs another limit (table-full), over tables as
-- those rows leave them. What a view will say is asked of its tables.
-- refused-insert-leaves-table-and-view: no row was inserted
CREATE TABLE strict(a INTEGER NOT NULL);
INSERT INTO strict VALUES (1), (2), (NULL);
SELECT COUNT(*) AS n FROM strict;
SELECT a FROM strict;
-- table-full: what stays
CREATE TABLE full(a INTEGER);
INSERT INTO full VALUES (2), (3);
SELECT a FROM full;
-- equal-rows-kept-by-move, and by move and merge
CREATE TABLE equal(a INTEGER);
INSERT INTO equal VALUES (7), (7), (7);
MOVE equal 2;
SELECT a FROM equal;
MERGE equal;
SELECT DISTINCT a FROM equal;
-- self-join-view-meets-its-own-change: pairs of rows with equal keys, after the first INSERT
CREATE TABLE pairs(k INTEGER);
INSERT INTO pairs VALUES (1), (1);
SELECT COUNT(*) AS n FROM pairs x JOIN pairs y ON x.k = y.k;
-- and after the second one, with move and merge
INSERT INTO pairs VALUES (1);
MOVE pairs 1;
MERGE pairs;
SELECT COUNT(*) AS n FROM pairs x JOIN pairs y ON x.k = y.k;
-- group-leaves-with-its-last-row
CREATE TABLE left_empty(k INTEGER, a INTEGER);
CREATE VIEW groups AS SELECT k, COUNT(*) AS n FROM left_empty GROUP BY k;
INSERT INTO left_empty VALUES (1, 5);
DELETE FROM left_empty WHERE k = 1;
SELECT k, n FROM groups;
SELECT k, COUNT(*) AS n FROM left_empty GROUP BY k;
SELECT COUNT(*) AS n, SUM(a) AS s FROM left_empty;
-- min-given-up-on-delete
CREATE TABLE least(k INTEGER, a INTEGER);
INSERT INTO least VALUES (1, 5), (1, 5), (1, 9);
SELECT k, MIN(a) AS m FROM least GROUP BY k;
DELETE FROM least WHERE a = 5;
SELECT k, MIN(a) AS m FROM least GROUP BY k;
-- query-with-the-core-of-a-view
SELECT k, MIN(a) FROM least GROUP BY k ORDER BY 2 DESC;
-- query-close-to-the-core-of-a-view, HAVING
SELECT k, MIN(a) FROM least GROUP BY k HAVING k = 1 ORDER BY 2 DESC;
-- query-close-to-the-core-of-a-view, WHERE
SELECT k, MIN(a) FROM least WHERE a > 0 GROUP BY k ORDER BY 2 DESC;
-- query-close-to-the-core-of-a-view, the items the other way round
SELECT MIN(a), k FROM least GROUP BY k ORDER BY 2 DESC;
-- three-table-view-through-updates, before the last DELETE
CREATE TABLE o(id INTEGER, c INTEGER);
CREATE TABLE l(o INTEGER, p INTEGER, q INTEGER);
CREATE TABLE p(id INTEGER, g TEXT, price INTEGER);
INSERT INTO o VALUES (1, 7), (2, 7);
INSERT INTO l VALUES (1, 10, 2), (1, 11, 1), (2, 12, 9);
INSERT INTO p VALUES (10, 'tea', 6), (11, 'tea', 5), (12, 'jam', 4);
SELECT p.g, SUM(l.q * p.price) AS s, MIN(p.price) AS m FROM o JOIN l ON o.id = l.o JOIN p ON l.p = p.id
    WHERE o.c = 7 GROUP BY p.g;
-- three-table-view-through-updates, its end
DELETE FROM l WHERE o = 1;
SELECT p.g, SUM(l.q * p.price) AS s, MIN(p.price) AS m FROM o JOIN l ON o.id = l.o JOIN p ON l.p = p.id
    WHERE o.c = 7 GROUP BY p.g;
-- update-reads-old-values
CREATE TABLE swapped(a INTEGER, b INTEGER);
INSERT INTO swapped VALUES (1, 2);
UPDATE swapped SET a = b, b = a;
SELECT a, b FROM swapped;
-- view-sum-beyond-128-bits-and-back
CREATE TABLE big(a INTEGER, b INTEGER);
INSERT INTO big VALUES (-9223372036854775808, -9223372036854775808), (-9223372036854775808, -9223372036854775808);
SELECT SUM(a * b) AS s FROM big;
INSERT INTO big VALUES (-9223372036854775808, 9223372036854775807);
SELECT SUM(a * b) AS s FROM big;
