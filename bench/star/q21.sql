SELECT SUM(lo_revenue) AS revenue, d_year, p_brand1
FROM lineorder JOIN part ON lo_partkey = p_partkey JOIN supplier ON lo_suppkey = s_suppkey
JOIN dates ON lo_orderdate = d_datekey
WHERE p_category = 'MFGR#12' AND s_region = 'AMERICA'
GROUP BY d_year, p_brand1
ORDER BY d_year, p_brand1
