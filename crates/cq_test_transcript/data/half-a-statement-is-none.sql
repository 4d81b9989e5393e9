-- What is missing makes these no statements

-- nothing behind CREATE
create;

-- no TABLE
create t(a integer);

-- no name of a table
create table (a integer);

-- no column
create table t();

-- a column without a type
create table t(a);

-- no closing parenthesis
create table t(a integer;

-- a comma before the closing parenthesis
create table t(a integer,);

-- no comma between columns
create table t(a integer b integer);

-- nothing behind DROP
drop;

-- no TABLE behind DROP
drop t;

-- no name behind DROP TABLE
drop table;

-- no GROUP BY, which a view may lack, and no table
create view v as select a from t;

-- no name behind AS
create view v as select a as from t group by a;

-- no BY
create view v as select a from t where a group a;

-- no GROUP
create view v as select a from t where a by a;

-- no name behind DROP VIEW
drop view;

-- no row
insert into t values;

-- an empty row
insert into t values ();

-- a row without its end
insert into t values (1;

-- a comma at the end of a row
insert into t values (1,);

-- no comma between constants
insert into t values (1 2);

-- a comma behind the last row
insert into t values (1),;

-- no comma between rows
insert into t values (1) (2);

-- no INTO
insert t values (1);

-- nothing behind DELETE
delete;

-- no FROM
delete t;

-- no table behind FROM
delete from;

-- no table before WHERE
delete from where a = 1;

-- no FROM behind the items
select a;

-- no item
select from t;

-- a comma behind the last item
select a, from t;

-- no AS before a name
select a b from t;

-- no name behind AS, in SELECT
select a as from t;

-- no alias behind AS
select a from t as;

-- no alias before WHERE
select a from t as where a;
