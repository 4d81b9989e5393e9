CREATE TABLE summary(nation TEXT, yr INTEGER, rev INTEGER, n INTEGER, PRIMARY KEY (nation, yr)) WITHOUT ROWID;
INSERT INTO summary SELECT c.nation, d.yr, SUM(f.revenue), COUNT(*) FROM fact f JOIN customer c ON f.custkey = c.custkey
    JOIN dates d ON f.orderdate = d.datekey GROUP BY c.nation, d.yr;
CREATE TRIGGER fact_insert AFTER INSERT ON fact BEGIN
    INSERT INTO summary SELECT c.nation, d.yr, NEW.revenue, 1 FROM customer c, dates d
        WHERE c.custkey = NEW.custkey AND d.datekey = NEW.orderdate
        ON CONFLICT (nation, yr) DO UPDATE SET rev = rev + excluded.rev, n = n + excluded.n;
END;
CREATE TRIGGER fact_delete AFTER DELETE ON fact BEGIN
    UPDATE summary SET rev = rev - OLD.revenue, n = n - 1
        WHERE nation = (SELECT nation FROM customer WHERE custkey = OLD.custkey)
        AND yr = (SELECT yr FROM dates WHERE datekey = OLD.orderdate);
    DELETE FROM summary WHERE n = 0 AND nation = (SELECT nation FROM customer WHERE custkey = OLD.custkey)
        AND yr = (SELECT yr FROM dates WHERE datekey = OLD.orderdate);
END;
CREATE TRIGGER fact_update AFTER UPDATE OF revenue ON fact BEGIN
    UPDATE summary SET rev = rev - OLD.revenue + NEW.revenue
        WHERE nation = (SELECT nation FROM customer WHERE custkey = OLD.custkey)
        AND yr = (SELECT yr FROM dates WHERE datekey = OLD.orderdate);
END;
