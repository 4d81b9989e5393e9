-- An aggregate in WHERE or in a write is refused once its argument is walked through

CREATE TABLE t(a INTEGER, s TEXT, d DATE);
INSERT INTO t VALUES (1,'x',DATE '2024-02-29');
-- each of them
SELECT a FROM t WHERE COUNT(*) = 1;
SELECT a FROM t WHERE COUNT(s) = 1;
SELECT a FROM t WHERE 0 < SUM(a);
SELECT a FROM t WHERE s = MIN(s);
SELECT a FROM t WHERE MAX(d) IS NULL;
-- in each form of a condition
SELECT a FROM t WHERE a = 1 AND (a = 2 OR NOT SUM(a) = 1);
SELECT a FROM t WHERE a BETWEEN 0 AND MAX(a);
SELECT a FROM t WHERE a IN (1, 2, COUNT(a));
SELECT a FROM t WHERE MIN(s) LIKE 'x';
SELECT a FROM t WHERE EXTRACT(DAY FROM MAX(d)) = 1;
SELECT a FROM t WHERE COUNT(*);
-- its argument comes first
SELECT a FROM t WHERE COUNT(z) = 1;
SELECT a FROM t WHERE SUM(q.a) = 1;
SELECT a FROM t WHERE SUM(s) = 1;
SELECT a FROM t WHERE SUM(NULL) = 1;
SELECT a FROM t WHERE MIN(a * a * a) = 1;
SELECT a FROM t WHERE COUNT((a = 1)) = 1;
SELECT a FROM t WHERE MAX((a = 1)) = 1;
SELECT a FROM t WHERE d = MAX(DATE '2023-02-29');
-- of two, the inner one
SELECT a FROM t WHERE SUM(COUNT(*) + 'x') = 1;
SELECT a FROM t WHERE SUM('x' + COUNT(*)) = 1;
SELECT a FROM t WHERE SUM('x' + COUNT(z)) = 1;
-- and what stands before it
SELECT a FROM t WHERE a + 'x' = COUNT(*);
SELECT a FROM t WHERE COUNT(*) = a + 'x';
SELECT a FROM u WHERE COUNT(*) = 1;
SELECT z FROM t WHERE COUNT(*) = 1;
-- DELETE
DELETE FROM t WHERE SUM(a) = 1;
DELETE FROM t WHERE SUM(s) = 1;
DELETE FROM u WHERE SUM(a) = 1;
-- UPDATE
UPDATE t SET a = COUNT(*);
UPDATE t SET a = SUM(s);
UPDATE t SET z = COUNT(*);
UPDATE t SET a = 1, a = MAX(a);
UPDATE t SET a = 'x', s = MAX(s);
UPDATE t SET a = MAX(a) WHERE COUNT(*) = 1;
UPDATE t SET a = 'x' WHERE COUNT(*) = 1;
-- in the WHERE of a view, and in another aggregate of its items
CREATE VIEW w AS SELECT a FROM t WHERE COUNT(*) = 1 GROUP BY a;
CREATE VIEW w AS SELECT a FROM t WHERE SUM(s) = 1 GROUP BY a;
CREATE VIEW w AS SELECT a FROM t WHERE MAX(a) = 1 GROUP BY zz;
CREATE VIEW w AS SELECT a, SUM(COUNT(*)) FROM t GROUP BY a;
CREATE VIEW w AS SELECT a, COUNT(MAX(s)) FROM t GROUP BY a;
CREATE VIEW w AS SELECT a, SUM(SUM(a) + 'x') FROM t GROUP BY a;
CREATE VIEW w AS SELECT a, SUM(SUM(s)) FROM t GROUP BY a;
-- in another aggregate of a SELECT, in its WHERE before GROUP BY, and in another one of HAVING
SELECT SUM(COUNT(*)) FROM t;
SELECT SUM(COUNT(*) + 'x') FROM t;
SELECT SUM('x' + COUNT(*)) FROM t;
SELECT SUM('x' + 1 + COUNT(*)) FROM t;
SELECT SUM(SUM(s)) FROM t;
SELECT SUM(MAX(s)) FROM t;
SELECT COUNT(MIN(zz)) FROM t;
SELECT MAX(a + COUNT(*)) FROM t GROUP BY a;
SELECT a FROM t WHERE SUM(a) = 1 GROUP BY zz;
SELECT a FROM t WHERE SUM(s) = 1 GROUP BY a;
SELECT a FROM t GROUP BY a HAVING MAX(MIN(a)) = 1;
SELECT COUNT(*) FROM t HAVING COUNT(COUNT(*)) = 1;
-- where no expression stands
SELECT a FROM t GROUP BY COUNT(*);
SELECT a FROM t JOIN t x ON COUNT(*) = x.a;
SELECT COUNT(*) FROM t ORDER BY COUNT(*);
SELECT a FROM t LIMIT COUNT(*);
INSERT INTO t VALUES (COUNT(*), NULL, NULL);
-- nothing has changed
SELECT a, s, d FROM t;
