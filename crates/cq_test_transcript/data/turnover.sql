-- What each kind of product brings in the north, kept while orders, lines and products change.
CREATE TABLE orders(id INTEGER NOT NULL, shop TEXT NOT NULL, placed DATE NOT NULL);
CREATE TABLE lines(ordered INTEGER NOT NULL, product INTEGER NOT NULL, pieces INTEGER NOT NULL);
CREATE TABLE products(id INTEGER NOT NULL, kind TEXT NOT NULL, cents INTEGER NOT NULL);

CREATE VIEW turnover AS
  SELECT p.kind, COUNT(*) AS lines, SUM(l.pieces * p.cents) AS cents, MIN(o.placed) AS since, MAX(o.placed) AS latest
  FROM orders o JOIN lines l ON o.id = l.ordered JOIN products p ON l.product = p.id
  WHERE o.shop = 'north'
  GROUP BY p.kind;

INSERT INTO products VALUES (10, 'tea', 300), (11, 'tea', 500), (12, 'jam', 400);
INSERT INTO orders VALUES (1, 'north', DATE '2026-03-01'), (2, 'north', DATE '2026-03-05'), (3, 'south', DATE '2026-03-02');
INSERT INTO lines VALUES (1, 10, 2), (1, 12, 1), (2, 11, 1), (2, 10, 1), (3, 12, 9);
SELECT kind, lines, cents, since, latest FROM turnover;

-- a price changes: every order that has the product follows
UPDATE products SET cents = 350 WHERE id = 10;
SELECT kind, lines, cents, since, latest FROM turnover;

-- an order moves to the north, with its lines
UPDATE orders SET shop = 'north' WHERE id = 3;
SELECT kind, lines, cents, since, latest FROM turnover;

-- the earliest order goes, and the next one is the earliest
DELETE FROM orders WHERE id = 1;
SELECT kind, lines, cents, since, latest FROM turnover;

-- a view is read like a table
SELECT SUM(cents) AS all_cents FROM turnover;
