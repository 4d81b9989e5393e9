CREATE TABLE customers_by_key(custkey Int64, nation String) ENGINE = Join(ANY, LEFT, custkey);
INSERT INTO customers_by_key SELECT custkey, nation FROM customer;
CREATE TABLE dates_by_key(datekey Int64, yr Int64) ENGINE = Join(ANY, LEFT, datekey);
INSERT INTO dates_by_key SELECT datekey, yr FROM dates;
CREATE MATERIALIZED VIEW summary ENGINE = Memory POPULATE AS
SELECT joinGet('customers_by_key', 'nation', custkey) AS nation, joinGet('dates_by_key', 'yr', orderdate) AS yr,
    sum(revenue) AS rev, count() AS n FROM fact GROUP BY nation, yr;
