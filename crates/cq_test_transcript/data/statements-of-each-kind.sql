-- Each of these is read as a statement

-- CREATE TABLE in small letters
create table t(a integer);

-- NOT NULL and SORT BY
CREATE TABLE t(a INTEGER NOT NULL, b TEXT, d DATE NOT NULL, a INTEGER) SORT BY a, b;

-- DROP TABLE
drop table t;

-- CREATE VIEW
create view v as select a from t group by a;

-- CREATE VIEW with an alias, a condition and two keys
create view v as select a from t as u where a group by a, b;

-- CREATE VIEW with aggregates
create view v as select a + 1, count(a), sum(a * b) as s from t u group by a;

-- DROP VIEW
drop view v;

-- INSERT
insert into t values (1);

-- INSERT of values of each type
insert into t values (1, -2, NULL), ('x', DATE 'y');

-- INSERT of a number with a sign apart
insert into t values (- 0);

-- DELETE
delete from t;

-- DELETE with a condition
delete from t where b <> -1;

-- SELECT
select a from t;

-- SELECT of a column with its table
select a, t.b, a from t;

-- SELECT with names and a condition
select a + 1 as b, 2 from t u where a <= 1;
