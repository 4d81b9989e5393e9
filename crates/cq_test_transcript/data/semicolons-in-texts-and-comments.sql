SELECT ';' ; CREATE TABLE t(a INTEGER); -- it's;
SELECT a FROM t; 'unclosed; SELECT a FROM t;