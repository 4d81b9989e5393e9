-- Nothing is refused, so the status is 0
CREATE TABLE t(a INTEGER NOT NULL, b TEXT NOT NULL, d DATE NOT NULL);
COPY t FROM 'empty.csv';
SELECT a, b, d FROM t;
