-- What follows a whole statement makes it none

-- a parenthesis
create table t(a integer));

-- a word
create table t(a integer) u;

-- a second name
drop table t u;

-- a list of names
drop table t, u;

-- WHERE behind GROUP BY
create view v as select a from t group by a where a = 1;

-- a second view
drop view v w;

-- a condition behind INSERT
insert into t values (1) where a = 1;

-- an alias in DELETE
delete from t u;

-- two tables in DELETE
delete from t, u;

-- a condition without WHERE
delete from t a = 1;

-- GROUP BY in DELETE
delete from t where a group by a;

-- two aliases
select a from t u v;

-- two aliases behind AS
select a from t as u v;

-- WHERE behind GROUP BY, in SELECT
select a from t group by a where a = 1;

-- GROUP BY twice
select a from t group by a group by b;

-- GROUP BY behind HAVING
select a from t having a = 1 group by a;

-- HAVING twice
select a from t having a = 1 having b = 1;

-- HAVING behind ORDER BY
select a from t group by a order by a having a = 1;

-- a list behind HAVING
select a from t having a = 1, b = 1;

-- an order of a key
select a from t group by a desc;
