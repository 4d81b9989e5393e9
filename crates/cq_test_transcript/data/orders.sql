-- What each customer ordered, kept up to date with every order that comes or goes.
CREATE TABLE orders(id INTEGER, customer INTEGER, cents INTEGER);
CREATE VIEW by_customer AS SELECT customer, COUNT(*) AS orders, SUM(cents) AS total FROM orders GROUP BY customer;
CREATE VIEW large AS SELECT customer, COUNT(*) AS orders FROM orders WHERE cents >= 10000 GROUP BY customer;
INSERT INTO orders VALUES (1, 17, 4990), (2, 17, 12500), (3, 23, 800), (4, 42, 25000);
SELECT customer, orders, total FROM by_customer;
-- An order is taken back, and the only one of another customer too.
DELETE FROM orders WHERE id = 2;
DELETE FROM orders WHERE customer = 23;
INSERT INTO orders VALUES (5, 42, 300);
SELECT customer, orders, total FROM by_customer;
SELECT customer FROM by_customer WHERE total > 10000;
SELECT customer, orders FROM large;
-- What is left to pay of each order, once 5.00 are taken off.
SELECT o.id, o.cents - 500 AS to_pay FROM orders o WHERE o.customer = 42 AND o.cents > 500;
-- The tax of each customer's orders, in hundredths of a cent, under the number of the customer's account.
CREATE VIEW taxes AS SELECT customer + 70000 AS account, COUNT(cents) AS priced, SUM(cents * 19) AS tax FROM orders GROUP BY customer;
INSERT INTO orders VALUES (6, 17, NULL);
SELECT account, priced, tax FROM taxes;
