CREATE UNLOGGED TABLE summary(nation TEXT, yr BIGINT, rev NUMERIC, n BIGINT, PRIMARY KEY (nation, yr)) WITH (fillfactor = 50);
INSERT INTO summary SELECT c.nation, d.yr, SUM(f.revenue), COUNT(*) FROM fact f JOIN customer c ON f.custkey = c.custkey
    JOIN dates d ON f.orderdate = d.datekey GROUP BY c.nation, d.yr;
CREATE OR REPLACE FUNCTION fact_insert() RETURNS trigger LANGUAGE plpgsql AS $$ BEGIN
    INSERT INTO summary AS s SELECT c.nation, d.yr, SUM(x.revenue), COUNT(*) FROM new_rows x
        JOIN customer c ON x.custkey = c.custkey JOIN dates d ON x.orderdate = d.datekey GROUP BY c.nation, d.yr
        ON CONFLICT (nation, yr) DO UPDATE SET rev = s.rev + excluded.rev, n = s.n + excluded.n;
    RETURN NULL;
END $$;
CREATE OR REPLACE FUNCTION fact_delete() RETURNS trigger LANGUAGE plpgsql AS $$ BEGIN
    UPDATE summary s SET rev = s.rev - o.rev, n = s.n - o.n FROM (
        SELECT c.nation, d.yr, SUM(x.revenue) AS rev, COUNT(*) AS n FROM old_rows x
        JOIN customer c ON x.custkey = c.custkey JOIN dates d ON x.orderdate = d.datekey GROUP BY c.nation, d.yr) o
        WHERE s.nation = o.nation AND s.yr = o.yr;
    DELETE FROM summary WHERE n = 0;
    RETURN NULL;
END $$;
CREATE OR REPLACE FUNCTION fact_update() RETURNS trigger LANGUAGE plpgsql AS $$ BEGIN
    UPDATE summary s SET rev = s.rev + o.rev FROM (
        SELECT c.nation, d.yr, SUM(y.revenue - x.revenue) AS rev FROM old_rows x JOIN new_rows y ON x.id = y.id
        JOIN customer c ON x.custkey = c.custkey JOIN dates d ON x.orderdate = d.datekey GROUP BY c.nation, d.yr) o
        WHERE s.nation = o.nation AND s.yr = o.yr;
    RETURN NULL;
END $$;
CREATE TRIGGER fact_insert AFTER INSERT ON fact REFERENCING NEW TABLE AS new_rows
    FOR EACH STATEMENT EXECUTE FUNCTION fact_insert();
CREATE TRIGGER fact_delete AFTER DELETE ON fact REFERENCING OLD TABLE AS old_rows
    FOR EACH STATEMENT EXECUTE FUNCTION fact_delete();
CREATE TRIGGER fact_update AFTER UPDATE ON fact REFERENCING OLD TABLE AS old_rows NEW TABLE AS new_rows
    FOR EACH STATEMENT EXECUTE FUNCTION fact_update();
ANALYZE summary;
