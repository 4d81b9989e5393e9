CREATE TABLE summary(nation TEXT, yr BIGINT, rev HUGEINT, n BIGINT, PRIMARY KEY (nation, yr));
INSERT INTO summary SELECT c.nation, d.yr, SUM(f.revenue), COUNT(*) FROM fact f JOIN customer c ON f.custkey = c.custkey
    JOIN dates d ON f.orderdate = d.datekey GROUP BY c.nation, d.yr;
