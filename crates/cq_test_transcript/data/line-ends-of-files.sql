-- A record ends at LF, at CR LF, at CR or at the end of the file
CREATE TABLE t(a INTEGER, b TEXT);
COPY t FROM 'lf.csv';
COPY t FROM 'lf-without-the-last.csv';
COPY t FROM 'crlf.csv';
COPY t FROM 'crlf-without-the-last.csv';
COPY t FROM 'cr.csv';
COPY t FROM 'quoted-crlf.csv';
COPY t FROM 'all-kinds.csv';
SELECT a, b, COUNT(*) AS n FROM t GROUP BY a, b;

-- an empty field at the end of the file, also in quotes
DELETE FROM t;
COPY t FROM 'empty-at-the-end.csv';
COPY t FROM 'quotes-at-the-end.csv';
SELECT a, b FROM t;

-- a bad record without a line end
COPY t FROM 'bad-without-the-last.csv';
