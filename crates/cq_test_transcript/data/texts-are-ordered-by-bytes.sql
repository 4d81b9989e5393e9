-- The empty text, a text that looks like NULL, quotes and letters past ASCII
CREATE TABLE t(b TEXT);
INSERT INTO t VALUES (NULL), (''), ('\N'), ('é'), ('z'), ('Z'), ('a"b'), ('it''s'), ('two words');
SELECT b FROM t;
