"""The tables of the Star Schema Benchmark at a scale factor, made from a seed, the same bytes on every machine.

A factor of 1 has 1,500,000 orders of one to seven lines. Numbers are drawn evenly, as the benchmark says; addresses and phone
numbers, which no query reads, are left out."""
import datetime
import math
import os
import random

from peers.schema import Schema
from workloads.tables import MODES, NATIONS, SEGMENTS, parts, write

HERE = os.path.dirname(os.path.realpath(__file__))
SCHEMA = Schema({
    "lineorder": "lo_orderkey:i lo_linenumber:i lo_custkey:i lo_partkey:i lo_suppkey:i lo_orderdate:i lo_orderpriority:t "
                 "lo_shippriority:i lo_quantity:i lo_extendedprice:i lo_ordtotalprice:i lo_discount:i lo_revenue:i "
                 "lo_supplycost:i lo_tax:i lo_commitdate:i lo_shipmode:t",
    "customer": "c_custkey:i c_name:t c_city:t c_nation:t c_region:t c_mktsegment:t",
    "supplier": "s_suppkey:i s_name:t s_city:t s_nation:t s_region:t",
    "part": "p_partkey:i p_name:t p_mfgr:t p_category:t p_brand1:t p_color:t p_type:t p_size:i p_container:t",
    "dates": "d_datekey:i d_date:d d_dayofweek:t d_month:t d_year:i d_yearmonthnum:i d_yearmonth:t d_daynuminyear:i "
             "d_monthnuminyear:i d_weeknuminyear:i",
}, {"customer": "c_custkey", "supplier": "s_suppkey", "part": "p_partkey", "dates": "d_datekey"}, HERE)

FIRST_DAY, DAYS, ORDER_DAYS = datetime.date(1992, 1, 1), 2557, 2406
DATES = [FIRST_DAY + datetime.timedelta(day) for day in range(DAYS)]
KEYS = [int(it.strftime("%Y%m%d")) for it in DATES]
PRIORITIES = ("1-URGENT", "2-HIGH", "3-MEDIUM", "4-NOT SPECI", "5-LOW")
COLORS = ("almond antique aquamarine azure beige bisque black blanched blue blush brown burlywood burnished chartreuse chiffon "
          "chocolate coral cornflower cornsilk cream cyan dark deep dim dodger drab firebrick floral forest frosted").split()
KINDS = [f"{size} {finish} {metal}" for size in ("STANDARD", "SMALL", "MEDIUM", "LARGE", "ECONOMY", "PROMO")
         for finish in ("ANODIZED", "BURNISHED", "PLATED", "POLISHED", "BRUSHED")
         for metal in ("TIN", "NICKEL", "BRASS", "STEEL", "COPPER")]
CONTAINERS = [f"{size} {form}" for size in ("SM", "LG", "MED", "JUMBO", "WRAP")
              for form in ("CASE", "BOX", "BAG", "JAR", "PKG", "PACK", "CAN", "DRUM")]
MONTHS = "Jan Feb Mar Apr May Jun Jul Aug Sep Oct Nov Dec".split()
WEEKDAYS = "Monday Tuesday Wednesday Thursday Friday Saturday Sunday".split()


class Sizes:
    """How many rows the tables have at a factor."""

    def __init__(self, factor):
        self.orders = round(1_500_000 * factor)
        self.customers, self.suppliers = max(1, round(30_000 * factor)), max(1, round(2_000 * factor))
        self.parts = round(200_000 * (1 + math.floor(math.log2(factor)) if factor >= 1 else factor))


def order(bits, key, sizes):
    """The lines of an order, as lists of values."""
    count, customer, day, priority = parts(bits(60), 7, sizes.customers, ORDER_DAYS, 5)
    lines, total = [], 0
    for number in range(1, count + 2):
        part, supplier, mode = parts(bits(60), sizes.parts, sizes.suppliers, 7)
        quantity, discount, tax, wait = parts(bits(60), 50, 11, 9, 61)
        unit = 90_000 + part // 10 % 20_001 + 100 * (part % 1000)
        price = unit * (quantity + 1)
        total += price * (100 - discount) * (100 + tax) // 10_000
        lines.append([key, number, customer + 1, part + 1, supplier + 1, KEYS[day], PRIORITIES[priority], 0, quantity + 1, price,
                      0, discount, price * (100 - discount) // 100, unit * 6 // 10, tax, KEYS[day + 30 + wait], MODES[mode]])
    for line in lines:
        line[10] = total
    return lines


def lineorder(bits, sizes):
    for key in range(1, sizes.orders + 1):
        yield "".join(",".join(map(str, line)) + "\n" for line in order(bits, key, sizes))


def place(bits):
    nation, region = NATIONS[bits(32) % 25]
    return f"{nation[:9]:9}{bits(32) % 10},{nation},{region}"


def customer(bits, sizes):
    for key in range(1, sizes.customers + 1):
        yield f"{key},Customer#{key:09},{place(bits)},{SEGMENTS[bits(32) % 5]}\n"


def supplier(bits, sizes):
    for key in range(1, sizes.suppliers + 1):
        yield f"{key},Supplier#{key:09},{place(bits)}\n"


def part(bits, sizes):
    for key in range(1, sizes.parts + 1):
        maker, category, brand, color, other, kind, size, box = parts(
            bits(96), 5, 5, 40, len(COLORS), len(COLORS), len(KINDS), 50, len(CONTAINERS))
        yield (f"{key},{COLORS[color]} {COLORS[other]},MFGR#{maker + 1},MFGR#{maker + 1}{category + 1},"
               f"MFGR#{maker + 1}{category + 1}{brand + 1},{COLORS[color]},{KINDS[kind]},{size + 1},{CONTAINERS[box]}\n")


def dates(*_):
    for key, it in zip(KEYS, DATES):
        month, in_year = MONTHS[it.month - 1], it.timetuple().tm_yday
        yield (f"{key},{it},{WEEKDAYS[it.weekday()]},{month},{it.year},{it.year * 100 + it.month},{month}{it.year},{in_year},"
               f"{it.month},{(in_year - 1) // 7 + 1}\n")


def make(factor, folder):
    """Makes the files of a factor that are not there."""
    sizes = Sizes(factor)
    os.makedirs(folder, exist_ok=True)
    for seed, rows in enumerate((lineorder, customer, supplier, part, dates), 31):
        write(f"{folder}/{rows.__name__}.csv", rows(random.Random(seed).getrandbits, sizes))


def constant(value):
    return f"'{value}'" if isinstance(value, str) else str(value)


def new_orders(factor, count):
    """INSERTs of orders behind those of the files."""
    sizes, bits = Sizes(factor), random.Random(41).getrandbits
    for key in range(sizes.orders + 1, sizes.orders + 1 + count):
        lines = (f"({', '.join(map(constant, line))})" for line in order(bits, key, sizes))
        yield f"INSERT INTO lineorder VALUES {', '.join(lines)}"
