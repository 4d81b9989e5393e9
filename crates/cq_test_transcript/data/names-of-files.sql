-- A file lies in the script's folder itself. What is named by another way cannot be read
CREATE TABLE t(a INTEGER);
COPY t FROM 'f.csv';
COPY t FROM 'f';
COPY t FROM 'a b.csv';
COPY t FROM 'it''s.csv';
COPY t FROM '.hidden';
COPY t FROM '...';
COPY t FROM 'é.csv';
SELECT a FROM t;

-- no such file
COPY t FROM 'g.csv';
COPY t FROM ' f.csv';
COPY t FROM 'f.csv ';

-- no name
COPY t FROM '';

-- the folder itself, and the one above
COPY t FROM '.';
COPY t FROM '..';

-- a folder
COPY t FROM 'folder';

-- files that are there, behind a slash
COPY t FROM 'folder/f.csv';
COPY t FROM './f.csv';
COPY t FROM '../names-of-files/f.csv';
COPY t FROM 'folder/../f.csv';

-- slashes alone, in front and behind
COPY t FROM '/';
COPY t FROM '/f.csv';
COPY t FROM 'f.csv/';
SELECT COUNT(*) AS n FROM t;
