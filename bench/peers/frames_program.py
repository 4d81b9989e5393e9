"""The queries of `bench/queries` in pandas, one process in one thread; texts of few values are categories.

It reads lines: load TABLE FILE, run QUERY FILE. Its time leaves out that the answer is written."""
import os
import sys
import time

for name in ("OMP_NUM_THREADS", "OPENBLAS_NUM_THREADS", "MKL_NUM_THREADS"):
    os.environ[name] = "1"
# This folder has modules that are named as others are.
sys.path.pop(0)
import numpy as np  # noqa: E402
import pandas as pd  # noqa: E402

LINEITEM = ("orderkey partkey suppkey quantity price discount tax returnflag:category linestatus:category shipdate:date "
            "shipmode:category")
COLUMNS = {
    "lineitem": LINEITEM,
    "lineitem4": LINEITEM,
    "lineorder": "id orderdate custkey suppkey partkey quantity price discount revenue supplycost",
    "dates": "datekey d:date yr mon weekday:category",
    "customer": "custkey city:category nation:category region:category segment:category",
    "supplier": "suppkey city:category nation:category region:category",
    "part": "partkey mfgr:category category:category brand:category",
    "notes": "id note:object",
}
TABLES = {}


def load(table, path):
    kinds = {name: kind for name, _, kind in (it.partition(":") for it in COLUMNS[table].split())}
    TABLES[table] = pd.read_csv(
        path, header=None, names=list(kinds), dtype={name: kind for name, kind in kinds.items() if kind not in ("", "date")},
        parse_dates=[name for name, kind in kinds.items() if kind == "date"], na_values=["\\N"], keep_default_na=False)


def revenue(table):
    it = TABLES[table]
    it = it[(it.shipdate >= "1994-01-01") & (it.shipdate < "1995-01-01") & (it.discount >= 5) & (it.discount <= 7)
            & (it.quantity < 24)]
    return pd.DataFrame({"rev": [int((it.price * it.discount).sum())]})


def by_status():
    it = TABLES["lineitem"]
    it = it[it.shipdate <= "1998-09-02"]
    it = it[["returnflag", "linestatus", "quantity", "price", "tax"]].assign(
        discounted=it.price * (100 - it.discount), taxed=it.quantity * it.tax)
    groups = it.groupby(["returnflag", "linestatus"], observed=True, sort=False)
    sums = groups.agg(sq=("quantity", "sum"), sp=("price", "sum"), sd=("discounted", "sum"), st=("taxed", "sum"),
                      nt=("tax", "count"), n=("quantity", "size")).reset_index()
    return sums.astype({"st": "int64"})


def by_brand():
    part, supplier = TABLES["part"], TABLES["supplier"]
    it = TABLES["lineorder"][["orderdate", "suppkey", "partkey", "revenue"]]
    it = it.merge(part.loc[part.category == "MFGR#12", ["partkey", "brand"]], on="partkey")
    it = it.merge(supplier.loc[supplier.region == "AMERICA", ["suppkey"]], on="suppkey")
    it = it.merge(TABLES["dates"][["datekey", "yr"]], left_on="orderdate", right_on="datekey")
    return it.groupby(["yr", "brand"], observed=True, sort=False).revenue.sum().reset_index()


def by_nations():
    customer, supplier, dates = TABLES["customer"], TABLES["supplier"], TABLES["dates"]
    customer = customer.loc[customer.region == "ASIA", ["custkey", "nation"]].rename(columns={"nation": "cn"})
    supplier = supplier.loc[supplier.region == "ASIA", ["suppkey", "nation"]].rename(columns={"nation": "sn"})
    dates = dates.loc[(dates.yr >= 1992) & (dates.yr <= 1997), ["datekey", "yr"]]
    it = TABLES["lineorder"][["orderdate", "custkey", "suppkey", "revenue"]].merge(customer, on="custkey")
    it = it.merge(supplier, on="suppkey").merge(dates, left_on="orderdate", right_on="datekey")
    return it.groupby(["cn", "sn", "yr"], observed=True, sort=False).revenue.sum().reset_index()


def by_nation():
    it = TABLES["lineorder"][["orderdate", "custkey", "revenue"]].merge(TABLES["customer"][["custkey", "nation"]], on="custkey")
    it = it.merge(TABLES["dates"][["datekey", "yr"]], left_on="orderdate", right_on="datekey")
    return it.groupby(["nation", "yr"], observed=True, sort=False).revenue.agg(["sum", "size"]).reset_index()


def by_part():
    return TABLES["lineitem"].groupby("partkey", sort=False).quantity.agg(["sum", "size"]).reset_index()


def dearest():
    it = TABLES["lineitem"]
    least = np.partition(it.price.values, len(it) - 100)[len(it) - 100]
    it = it.loc[it.price >= least, ["price", "orderkey", "partkey"]]
    return it.sort_values(["price", "orderkey", "partkey"], ascending=[False, True, True]).head(100)


def distinct(*names):
    return TABLES["lineitem"][list(names)].drop_duplicates()


def counted(is_kept):
    return pd.DataFrame({"n": [int(is_kept(TABLES["notes"].note.str).sum())]})


QUERIES = {
    "a_scan1m": lambda: revenue("lineitem"),
    "a_scan4m": lambda: revenue("lineitem4"),
    "b_group6": by_status,
    "c_join_all": by_nation,
    "c_star_q2": by_brand,
    "c_star_q3": by_nations,
    "d_group100k": lambda: by_part().sort_values(["sum", "partkey"], ascending=[False, True]).head(10),
    "d_group100k_out": by_part,
    "e_distinct350": lambda: distinct("shipmode", "quantity"),
    "e_distinct50k": lambda: distinct("suppkey", "quantity").sort_values(["suppkey", "quantity"]).head(20),
    "e_top100": dearest,
    "f_like_infix": lambda: counted(lambda texts: texts.contains("special.*requests", regex=True)),
    "f_like_one": lambda: counted(lambda texts: texts.contains("d.posits", regex=True)),
    "f_like_prefix": lambda: counted(lambda texts: texts.startswith("Fluffily")),
}


def answered(command, name, path):
    """The seconds of a command, or None where it is not known."""
    begun = time.perf_counter()
    if command == "load" and name in COLUMNS:
        load(name, path)
        return time.perf_counter() - begun
    if command == "run" and name in QUERIES:
        rows = QUERIES[name]()
        seconds = time.perf_counter() - begun
        rows.to_csv(path, header=False, index=False, na_rep="\\N")
        return seconds
    return None


for line in sys.stdin:
    seconds = answered(*line.split())
    print("no" if seconds is None else f"ok {seconds:.9f}", flush=True)
