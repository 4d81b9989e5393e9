-- Each condition with the truth that it has: True is kept by WHERE, False is kept behind NOT, and Unknown by neither.
CREATE TABLE truths(truth TEXT, a INTEGER, n INTEGER);
INSERT INTO truths VALUES ('True', 1, NULL), ('False', 1, NULL);
-- a comparison by =, NULL on the left: Unknown
SELECT truth FROM truths WHERE truth = 'True' AND n = a OR truth = 'False' AND NOT n = a;
-- a comparison by =, NULL on the right: Unknown
SELECT truth FROM truths WHERE truth = 'True' AND a = n OR truth = 'False' AND NOT a = n;
-- a comparison by =, NULL on both sides: Unknown
SELECT truth FROM truths WHERE truth = 'True' AND n = n OR truth = 'False' AND NOT n = n;
-- a comparison by <>, NULL on the left: Unknown
SELECT truth FROM truths WHERE truth = 'True' AND n <> a OR truth = 'False' AND NOT n <> a;
-- a comparison by <>, NULL on the right: Unknown
SELECT truth FROM truths WHERE truth = 'True' AND a <> n OR truth = 'False' AND NOT a <> n;
-- a comparison by <>, NULL on both sides: Unknown
SELECT truth FROM truths WHERE truth = 'True' AND n <> n OR truth = 'False' AND NOT n <> n;
-- a comparison by <, NULL on the left: Unknown
SELECT truth FROM truths WHERE truth = 'True' AND n < a OR truth = 'False' AND NOT n < a;
-- a comparison by <, NULL on the right: Unknown
SELECT truth FROM truths WHERE truth = 'True' AND a < n OR truth = 'False' AND NOT a < n;
-- a comparison by <, NULL on both sides: Unknown
SELECT truth FROM truths WHERE truth = 'True' AND n < n OR truth = 'False' AND NOT n < n;
-- a comparison by <=, NULL on the left: Unknown
SELECT truth FROM truths WHERE truth = 'True' AND n <= a OR truth = 'False' AND NOT n <= a;
-- a comparison by <=, NULL on the right: Unknown
SELECT truth FROM truths WHERE truth = 'True' AND a <= n OR truth = 'False' AND NOT a <= n;
-- a comparison by <=, NULL on both sides: Unknown
SELECT truth FROM truths WHERE truth = 'True' AND n <= n OR truth = 'False' AND NOT n <= n;
-- a comparison by >, NULL on the left: Unknown
SELECT truth FROM truths WHERE truth = 'True' AND n > a OR truth = 'False' AND NOT n > a;
-- a comparison by >, NULL on the right: Unknown
SELECT truth FROM truths WHERE truth = 'True' AND a > n OR truth = 'False' AND NOT a > n;
-- a comparison by >, NULL on both sides: Unknown
SELECT truth FROM truths WHERE truth = 'True' AND n > n OR truth = 'False' AND NOT n > n;
-- a comparison by >=, NULL on the left: Unknown
SELECT truth FROM truths WHERE truth = 'True' AND n >= a OR truth = 'False' AND NOT n >= a;
-- a comparison by >=, NULL on the right: Unknown
SELECT truth FROM truths WHERE truth = 'True' AND a >= n OR truth = 'False' AND NOT a >= n;
-- a comparison by >=, NULL on both sides: Unknown
SELECT truth FROM truths WHERE truth = 'True' AND n >= n OR truth = 'False' AND NOT n >= n;
-- 1 and 2 compared by =: False
SELECT truth FROM truths WHERE truth = 'True' AND 1 = 2 OR truth = 'False' AND NOT 1 = 2;
-- 2 and 2 compared by =: True
SELECT truth FROM truths WHERE truth = 'True' AND 2 = 2 OR truth = 'False' AND NOT 2 = 2;
-- 2 and 1 compared by =: False
SELECT truth FROM truths WHERE truth = 'True' AND 2 = 1 OR truth = 'False' AND NOT 2 = 1;
-- 1 and 2 compared by <>: True
SELECT truth FROM truths WHERE truth = 'True' AND 1 <> 2 OR truth = 'False' AND NOT 1 <> 2;
-- 2 and 2 compared by <>: False
SELECT truth FROM truths WHERE truth = 'True' AND 2 <> 2 OR truth = 'False' AND NOT 2 <> 2;
-- 2 and 1 compared by <>: True
SELECT truth FROM truths WHERE truth = 'True' AND 2 <> 1 OR truth = 'False' AND NOT 2 <> 1;
-- 1 and 2 compared by <: True
SELECT truth FROM truths WHERE truth = 'True' AND 1 < 2 OR truth = 'False' AND NOT 1 < 2;
-- 2 and 2 compared by <: False
SELECT truth FROM truths WHERE truth = 'True' AND 2 < 2 OR truth = 'False' AND NOT 2 < 2;
-- 2 and 1 compared by <: False
SELECT truth FROM truths WHERE truth = 'True' AND 2 < 1 OR truth = 'False' AND NOT 2 < 1;
-- 1 and 2 compared by <=: True
SELECT truth FROM truths WHERE truth = 'True' AND 1 <= 2 OR truth = 'False' AND NOT 1 <= 2;
-- 2 and 2 compared by <=: True
SELECT truth FROM truths WHERE truth = 'True' AND 2 <= 2 OR truth = 'False' AND NOT 2 <= 2;
-- 2 and 1 compared by <=: False
SELECT truth FROM truths WHERE truth = 'True' AND 2 <= 1 OR truth = 'False' AND NOT 2 <= 1;
-- 1 and 2 compared by >: False
SELECT truth FROM truths WHERE truth = 'True' AND 1 > 2 OR truth = 'False' AND NOT 1 > 2;
-- 2 and 2 compared by >: False
SELECT truth FROM truths WHERE truth = 'True' AND 2 > 2 OR truth = 'False' AND NOT 2 > 2;
-- 2 and 1 compared by >: True
SELECT truth FROM truths WHERE truth = 'True' AND 2 > 1 OR truth = 'False' AND NOT 2 > 1;
-- 1 and 2 compared by >=: False
SELECT truth FROM truths WHERE truth = 'True' AND 1 >= 2 OR truth = 'False' AND NOT 1 >= 2;
-- 2 and 2 compared by >=: True
SELECT truth FROM truths WHERE truth = 'True' AND 2 >= 2 OR truth = 'False' AND NOT 2 >= 2;
-- 2 and 1 compared by >=: True
SELECT truth FROM truths WHERE truth = 'True' AND 2 >= 1 OR truth = 'False' AND NOT 2 >= 1;
