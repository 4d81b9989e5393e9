create table T_1(A integer)
;
insert into t_1 values(1);select a from T_1 -- ; no end
 where a=1;