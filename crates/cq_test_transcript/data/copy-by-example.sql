-- The example of docs/LANGUAGE.md, COPY
CREATE TABLE sales(shop TEXT, sold_on DATE, cents INTEGER NOT NULL);
COPY sales FROM 'sales.csv';
SELECT shop, sold_on, cents FROM sales;
COPY sales FROM 'more.csv';
COPY sales FROM 'none.csv';
SELECT COUNT(*) AS sold FROM sales;

-- what is no statement
COPY sales FROM sales;
COPY sales FROM 'a.csv' 'b.csv';
