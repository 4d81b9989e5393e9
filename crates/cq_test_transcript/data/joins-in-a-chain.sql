-- A later join reads the columns of all sources before it: people with their bosses, orders of people, lines of
-- orders.
CREATE TABLE people(id INTEGER, boss INTEGER);
INSERT INTO people VALUES (1, NULL), (2, 1), (3, 1), (4, 3);
CREATE TABLE orders(id INTEGER, person INTEGER);
INSERT INTO orders VALUES (50, 2), (51, 4), (52, NULL);
CREATE TABLE lines(id INTEGER, amount INTEGER);
INSERT INTO lines VALUES (50, 5), (50, 5), (51, 6), (52, 7);
-- boss of boss
SELECT x.id, z.id FROM people x JOIN people y ON x.boss = y.id JOIN people z ON y.boss = z.id;
-- person, order, line
SELECT people.id, amount FROM people JOIN orders ON people.id = orders.person JOIN lines ON orders.id = lines.id;
-- line, order, boss
SELECT amount, boss FROM lines JOIN orders ON lines.id = orders.id JOIN people ON orders.person = people.id;
