-- Each test, and each pair of truths behind AND and OR: True is kept by WHERE, False is kept behind NOT, and Unknown
-- by neither. 1 = 1 is true, 1 = 2 is false, and 1 = NULL is unknown.
CREATE TABLE truths(truth TEXT);
INSERT INTO truths VALUES ('True'), ('False');
-- 1 IS NULL: False
SELECT truth FROM truths WHERE truth = 'True' AND 1 IS NULL OR truth = 'False' AND NOT 1 IS NULL;
-- NULL IS NULL: True
SELECT truth FROM truths WHERE truth = 'True' AND NULL IS NULL OR truth = 'False' AND NOT NULL IS NULL;
-- -NULL IS NULL: True
SELECT truth FROM truths WHERE truth = 'True' AND -NULL IS NULL OR truth = 'False' AND NOT -NULL IS NULL;
-- 1 + NULL IS NULL: True
SELECT truth FROM truths WHERE truth = 'True' AND 1 + NULL IS NULL OR truth = 'False' AND NOT 1 + NULL IS NULL;
-- 1 BETWEEN 1 AND 2: True
SELECT truth FROM truths WHERE truth = 'True' AND 1 BETWEEN 1 AND 2 OR truth = 'False' AND 1 NOT BETWEEN 1 AND 2;
-- 2 BETWEEN 1 AND 2: True
SELECT truth FROM truths WHERE truth = 'True' AND 2 BETWEEN 1 AND 2 OR truth = 'False' AND 2 NOT BETWEEN 1 AND 2;
-- 3 BETWEEN 1 AND 2: False
SELECT truth FROM truths WHERE truth = 'True' AND 3 BETWEEN 1 AND 2 OR truth = 'False' AND 3 NOT BETWEEN 1 AND 2;
-- 1 BETWEEN 2 AND 3: False
SELECT truth FROM truths WHERE truth = 'True' AND 1 BETWEEN 2 AND 3 OR truth = 'False' AND 1 NOT BETWEEN 2 AND 3;
-- 2 BETWEEN 3 AND 1: False
SELECT truth FROM truths WHERE truth = 'True' AND 2 BETWEEN 3 AND 1 OR truth = 'False' AND 2 NOT BETWEEN 3 AND 1;
-- 2 BETWEEN 2 AND 2: True
SELECT truth FROM truths WHERE truth = 'True' AND 2 BETWEEN 2 AND 2 OR truth = 'False' AND 2 NOT BETWEEN 2 AND 2;
-- NULL BETWEEN 1 AND 2: Unknown
SELECT truth FROM truths WHERE truth = 'True' AND NULL BETWEEN 1 AND 2
    OR truth = 'False' AND NULL NOT BETWEEN 1 AND 2;
-- 1 BETWEEN NULL AND 2: Unknown
SELECT truth FROM truths WHERE truth = 'True' AND 1 BETWEEN NULL AND 2
    OR truth = 'False' AND 1 NOT BETWEEN NULL AND 2;
-- 3 BETWEEN NULL AND 2: False
SELECT truth FROM truths WHERE truth = 'True' AND 3 BETWEEN NULL AND 2
    OR truth = 'False' AND 3 NOT BETWEEN NULL AND 2;
-- 2 BETWEEN 1 AND NULL: Unknown
SELECT truth FROM truths WHERE truth = 'True' AND 2 BETWEEN 1 AND NULL
    OR truth = 'False' AND 2 NOT BETWEEN 1 AND NULL;
-- 1 BETWEEN 2 AND NULL: False
SELECT truth FROM truths WHERE truth = 'True' AND 1 BETWEEN 2 AND NULL
    OR truth = 'False' AND 1 NOT BETWEEN 2 AND NULL;
-- 1 BETWEEN NULL AND NULL: Unknown
SELECT truth FROM truths WHERE truth = 'True' AND 1 BETWEEN NULL AND NULL
    OR truth = 'False' AND 1 NOT BETWEEN NULL AND NULL;
-- NULL BETWEEN NULL AND NULL: Unknown
SELECT truth FROM truths WHERE truth = 'True' AND NULL BETWEEN NULL AND NULL
    OR truth = 'False' AND NULL NOT BETWEEN NULL AND NULL;
-- 1 IN (1): True
SELECT truth FROM truths WHERE truth = 'True' AND 1 IN (1) OR truth = 'False' AND 1 NOT IN (1);
-- 1 IN (2, 3): False
SELECT truth FROM truths WHERE truth = 'True' AND 1 IN (2, 3) OR truth = 'False' AND 1 NOT IN (2, 3);
-- 3 IN (1, 2, 3): True
SELECT truth FROM truths WHERE truth = 'True' AND 3 IN (1, 2, 3) OR truth = 'False' AND 3 NOT IN (1, 2, 3);
-- NULL IN (1, 2): Unknown
SELECT truth FROM truths WHERE truth = 'True' AND NULL IN (1, 2) OR truth = 'False' AND NULL NOT IN (1, 2);
-- NULL IN (NULL): Unknown
SELECT truth FROM truths WHERE truth = 'True' AND NULL IN (NULL) OR truth = 'False' AND NULL NOT IN (NULL);
-- 1 IN (1, NULL): True
SELECT truth FROM truths WHERE truth = 'True' AND 1 IN (1, NULL) OR truth = 'False' AND 1 NOT IN (1, NULL);
-- 1 IN (NULL, 1): True
SELECT truth FROM truths WHERE truth = 'True' AND 1 IN (NULL, 1) OR truth = 'False' AND 1 NOT IN (NULL, 1);
-- 1 IN (2, NULL): Unknown
SELECT truth FROM truths WHERE truth = 'True' AND 1 IN (2, NULL) OR truth = 'False' AND 1 NOT IN (2, NULL);
-- 1 IN (NULL): Unknown
SELECT truth FROM truths WHERE truth = 'True' AND 1 IN (NULL) OR truth = 'False' AND 1 NOT IN (NULL);
-- NULL LIKE '%': Unknown
SELECT truth FROM truths WHERE truth = 'True' AND NULL LIKE '%' OR truth = 'False' AND NULL NOT LIKE '%';
-- NULL LIKE '': Unknown
SELECT truth FROM truths WHERE truth = 'True' AND NULL LIKE '' OR truth = 'False' AND NULL NOT LIKE '';
-- NOT NULL LIKE 'a': Unknown
SELECT truth FROM truths WHERE truth = 'True' AND NULL NOT LIKE 'a' OR truth = 'False' AND NOT NULL NOT LIKE 'a';
-- NOT true: False
SELECT truth FROM truths WHERE truth = 'True' AND NOT 1 = 1 OR truth = 'False' AND NOT (NOT 1 = 1);
-- NOT false: True
SELECT truth FROM truths WHERE truth = 'True' AND NOT 1 = 2 OR truth = 'False' AND NOT (NOT 1 = 2);
-- NOT unknown: Unknown
SELECT truth FROM truths WHERE truth = 'True' AND NOT 1 = NULL OR truth = 'False' AND NOT (NOT 1 = NULL);
-- true and true: True
SELECT truth FROM truths WHERE truth = 'True' AND (1 = 1 AND 1 = 1) OR truth = 'False' AND NOT (1 = 1 AND 1 = 1);
-- true and false: False
SELECT truth FROM truths WHERE truth = 'True' AND (1 = 1 AND 1 = 2) OR truth = 'False' AND NOT (1 = 1 AND 1 = 2);
-- true and unknown: Unknown
SELECT truth FROM truths WHERE truth = 'True' AND (1 = 1 AND 1 = NULL)
    OR truth = 'False' AND NOT (1 = 1 AND 1 = NULL);
-- false and true: False
SELECT truth FROM truths WHERE truth = 'True' AND (1 = 2 AND 1 = 1) OR truth = 'False' AND NOT (1 = 2 AND 1 = 1);
-- false and false: False
SELECT truth FROM truths WHERE truth = 'True' AND (1 = 2 AND 1 = 2) OR truth = 'False' AND NOT (1 = 2 AND 1 = 2);
-- false and unknown: False
SELECT truth FROM truths WHERE truth = 'True' AND (1 = 2 AND 1 = NULL)
    OR truth = 'False' AND NOT (1 = 2 AND 1 = NULL);
-- unknown and true: Unknown
SELECT truth FROM truths WHERE truth = 'True' AND (1 = NULL AND 1 = 1)
    OR truth = 'False' AND NOT (1 = NULL AND 1 = 1);
-- unknown and false: False
SELECT truth FROM truths WHERE truth = 'True' AND (1 = NULL AND 1 = 2)
    OR truth = 'False' AND NOT (1 = NULL AND 1 = 2);
-- unknown and unknown: Unknown
SELECT truth FROM truths WHERE truth = 'True' AND (1 = NULL AND 1 = NULL)
    OR truth = 'False' AND NOT (1 = NULL AND 1 = NULL);
-- the last of three: False
SELECT truth FROM truths WHERE truth = 'True' AND (1 = 1 AND 1 = NULL AND 1 = 2)
    OR truth = 'False' AND NOT (1 = 1 AND 1 = NULL AND 1 = 2);
-- true or true: True
SELECT truth FROM truths WHERE truth = 'True' AND (1 = 1 OR 1 = 1) OR truth = 'False' AND NOT (1 = 1 OR 1 = 1);
-- true or false: True
SELECT truth FROM truths WHERE truth = 'True' AND (1 = 1 OR 1 = 2) OR truth = 'False' AND NOT (1 = 1 OR 1 = 2);
-- true or unknown: True
SELECT truth FROM truths WHERE truth = 'True' AND (1 = 1 OR 1 = NULL)
    OR truth = 'False' AND NOT (1 = 1 OR 1 = NULL);
-- false or true: True
SELECT truth FROM truths WHERE truth = 'True' AND (1 = 2 OR 1 = 1) OR truth = 'False' AND NOT (1 = 2 OR 1 = 1);
-- false or false: False
SELECT truth FROM truths WHERE truth = 'True' AND (1 = 2 OR 1 = 2) OR truth = 'False' AND NOT (1 = 2 OR 1 = 2);
-- false or unknown: Unknown
SELECT truth FROM truths WHERE truth = 'True' AND (1 = 2 OR 1 = NULL)
    OR truth = 'False' AND NOT (1 = 2 OR 1 = NULL);
-- unknown or true: True
SELECT truth FROM truths WHERE truth = 'True' AND (1 = NULL OR 1 = 1)
    OR truth = 'False' AND NOT (1 = NULL OR 1 = 1);
-- unknown or false: Unknown
SELECT truth FROM truths WHERE truth = 'True' AND (1 = NULL OR 1 = 2)
    OR truth = 'False' AND NOT (1 = NULL OR 1 = 2);
-- unknown or unknown: Unknown
SELECT truth FROM truths WHERE truth = 'True' AND (1 = NULL OR 1 = NULL)
    OR truth = 'False' AND NOT (1 = NULL OR 1 = NULL);
-- the last of three: True
SELECT truth FROM truths WHERE truth = 'True' AND (1 = 2 OR 1 = NULL OR 1 = 1)
    OR truth = 'False' AND NOT (1 = 2 OR 1 = NULL OR 1 = 1);
-- 1 BETWEEN 1 AND 3: True
SELECT truth FROM truths WHERE truth = 'True' AND 1 BETWEEN 1 AND 3 OR truth = 'False' AND 1 NOT BETWEEN 1 AND 3;
-- 3 BETWEEN 1 AND 3: True
SELECT truth FROM truths WHERE truth = 'True' AND 3 BETWEEN 1 AND 3 OR truth = 'False' AND 3 NOT BETWEEN 1 AND 3;
-- 4 BETWEEN 1 AND 3: False
SELECT truth FROM truths WHERE truth = 'True' AND 4 BETWEEN 1 AND 3 OR truth = 'False' AND 4 NOT BETWEEN 1 AND 3;
-- NULL BETWEEN 1 AND 3: Unknown
SELECT truth FROM truths WHERE truth = 'True' AND NULL BETWEEN 1 AND 3 OR truth = 'False' AND NULL NOT BETWEEN 1 AND 3;
-- 2 BETWEEN NULL AND 3: Unknown
SELECT truth FROM truths WHERE truth = 'True' AND 2 BETWEEN NULL AND 3 OR truth = 'False' AND 2 NOT BETWEEN NULL AND 3;
-- 4 BETWEEN NULL AND 3: False
SELECT truth FROM truths WHERE truth = 'True' AND 4 BETWEEN NULL AND 3 OR truth = 'False' AND 4 NOT BETWEEN NULL AND 3;
-- 0 BETWEEN 1 AND NULL: False
SELECT truth FROM truths WHERE truth = 'True' AND 0 BETWEEN 1 AND NULL OR truth = 'False' AND 0 NOT BETWEEN 1 AND NULL;
-- 1 IN (1, 2): True
SELECT truth FROM truths WHERE truth = 'True' AND 1 IN (1, 2) OR truth = 'False' AND 1 NOT IN (1, 2);
-- 3 IN (1, 2): False
SELECT truth FROM truths WHERE truth = 'True' AND 3 IN (1, 2) OR truth = 'False' AND 3 NOT IN (1, 2);
-- 3 IN (1, NULL): Unknown
SELECT truth FROM truths WHERE truth = 'True' AND 3 IN (1, NULL) OR truth = 'False' AND 3 NOT IN (1, NULL);
-- 3 IN (NULL, 1): Unknown
SELECT truth FROM truths WHERE truth = 'True' AND 3 IN (NULL, 1) OR truth = 'False' AND 3 NOT IN (NULL, 1);
-- 'a' LIKE '%': True
SELECT truth FROM truths WHERE truth = 'True' AND 'a' LIKE '%' OR truth = 'False' AND 'a' NOT LIKE '%';
