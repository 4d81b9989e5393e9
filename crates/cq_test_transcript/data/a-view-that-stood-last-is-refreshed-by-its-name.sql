-- a view that stood last keeps its name and its epoch where one before it goes
CREATE TABLE t(k INTEGER);
CREATE VIEW a AS SELECT k, COUNT(*) AS n FROM t GROUP BY k;
CREATE VIEW b AS SELECT SUM(k) AS s FROM t;
CREATE VIEW c AS SELECT COUNT(*) AS n FROM t x JOIN t y ON x.k = y.k;
INSERT INTO t VALUES (1), (2);
INSERT INTO t VALUES (2);
REFRESH c 1;
DROP VIEW a;
REFRESH a 1;
REFRESH c 1;
INSERT INTO t VALUES (4);
SELECT n FROM c;
SELECT s FROM b;
-- a view of the same name with another query stands last now
CREATE VIEW a AS SELECT MIN(k) AS m FROM t;
DELETE FROM t WHERE k = 1;
DROP VIEW b;
REFRESH a 1;
REFRESH c 0;
REFRESH b 5;
SELECT m FROM a;
SELECT n FROM c;
-- and one alone
DROP VIEW c;
UPDATE t SET k = 3 WHERE k = 2;
REFRESH a 5;
SELECT m FROM a;
SELECT n FROM c;
