"""The tables of `bench/queries`: after TPC-H and the Star Schema Benchmark, made from a seed, the same bytes on every machine.

Each number comes from random.Random(seed).getrandbits, whose stream is the same in every Python 3. A file is written under
another name first, so one that is there is whole. It is as COPY reads it: no header line, NULL is \\N."""
import datetime
import itertools
import json
import os
import random
import sys
from collections import namedtuple

from peers.schema import Schema

HERE = os.path.dirname(os.path.realpath(__file__))
LINEITEM = ("orderkey:i partkey:i suppkey:i quantity:i price:i discount:i tax:i? returnflag:t linestatus:t shipdate:d "
            "shipmode:t")
SCHEMA = Schema({
    "lineitem": LINEITEM,
    "lineitem4": LINEITEM,
    "lineorder": "id:i orderdate:i custkey:i suppkey:i partkey:i quantity:i price:i discount:i revenue:i supplycost:i",
    "dates": "datekey:i d:d yr:i mon:i weekday:t",
    "customer": "custkey:i city:t nation:t region:t segment:t",
    "supplier": "suppkey:i city:t nation:t region:t",
    "part": "partkey:i mfgr:t category:t brand:t",
    "notes": "id:i note:t",
}, {"dates": "datekey", "customer": "custkey", "supplier": "suppkey", "part": "partkey", "lineorder": "id"}, HERE)

Scale = namedtuple("Scale", "lineitem lineitem4 notes lineorder facts writes")
SCALES = {"full": Scale(1_000_000, 4_000_000, 1_000_000, 1_000_000, (10_000, 100_000, 1_000_000), 1000),
          "small": Scale(20_000, 80_000, 20_000, 20_000, (1_000, 5_000, 20_000), 100)}
CUSTOMERS, SUPPLIERS, PARTS_OF_FACTS, PARTS = 30_000, 2_000, 50_000, 100_000
MODES = ("AIR", "FOB", "MAIL", "RAIL", "REG AIR", "SHIP", "TRUCK")
REGIONS = {"AFRICA": ("ALGERIA", "ETHIOPIA", "KENYA", "MOROCCO", "MOZAMBIQUE"),
           "AMERICA": ("ARGENTINA", "BRAZIL", "CANADA", "PERU", "UNITED STATES"),
           "ASIA": ("CHINA", "INDIA", "INDONESIA", "JAPAN", "VIETNAM"),
           "EUROPE": ("FRANCE", "GERMANY", "ROMANIA", "RUSSIA", "UNITED KINGDOM"),
           "MIDDLE EAST": ("EGYPT", "IRAN", "IRAQ", "JORDAN", "SAUDI ARABIA")}
NATIONS = [(nation, region) for region in sorted(REGIONS) for nation in REGIONS[region]]
SEGMENTS = ("AUTOMOBILE", "BUILDING", "FURNITURE", "HOUSEHOLD", "MACHINERY")
WORDS = ("carefully quickly furiously slyly blithely fluffily Fluffily ironic final pending regular express bold even silent "
         "unusual special Special requests deposits d\u00e9posits packages accounts theodolites instructions foxes pinto beans "
         "ideas dependencies platelets excuses asymptotes courts dolphins sleep nag haggle wake cajole boost engage detect "
         "integrate among above across after against along the of").split()
FIRST_DAY, DAYS = datetime.date(1992, 1, 1), 2557
DATES = [(FIRST_DAY + datetime.timedelta(day)).isoformat() for day in range(DAYS + 40)]
DATE_KEYS = [int(date.replace("-", "")) for date in DATES[:DAYS]]
STATUS_TURNS = DATES.index("1995-06-17")


def parts(number, *sizes):
    """The digits of a number to these bases, the lowest first."""
    for size in sizes:
        number, digit = divmod(number, size)
        yield digit


def lineitem(bits, count):
    """Lines of orders; tax is NULL in one of a hundred."""
    order = 1
    for _ in range(count):
        part, supplier, quantity, discount, tax, more, mode = parts(bits(64), PARTS, 1000, 50, 11, 9, 4, 7)
        ship, lag, flag, null, unit = parts(bits(48), 2526, 30, 2, 100, 110_000)
        returned = "AR"[flag] if ship + 1 + lag <= STATUS_TURNS else "N"
        yield (f"{order},{part + 1},{supplier + 1},{quantity + 1},{(unit + 90_000) * (quantity + 1)},{discount},"
               f"{tax if null else chr(92) + 'N'},{returned},{'O' if ship > STATUS_TURNS else 'F'},{DATES[ship + 1]},"
               f"{MODES[mode]}\n")
        order += more == 0


def fact(bits, key):
    """A row of lineorder."""
    day, customer, supplier, part = parts(bits(64), DAYS, CUSTOMERS, SUPPLIERS, PARTS_OF_FACTS)
    quantity, discount, unit = parts(bits(40), 50, 11, 110_000)
    price = (unit + 90_000) * (quantity + 1)
    return (key, DATE_KEYS[day], customer + 1, supplier + 1, part + 1, quantity + 1, price, discount,
            price * (100 - discount) // 100, price * 6 // 10)


def lineorder(bits, count):
    for key in range(1, count + 1):
        yield ",".join(map(str, fact(bits, key))) + "\n"


def dates(*_):
    for place in range(DAYS):
        day = FIRST_DAY + datetime.timedelta(place)
        yield f"{DATE_KEYS[place]},{DATES[place]},{day.year},{day.month},{day.strftime('%A')}\n"


def place_of(bits):
    """A city with its nation and region."""
    nation, region = NATIONS[bits(32) % 25]
    return f"{nation[:9]}{bits(32) % 10},{nation},{region}"


def customer(bits, _):
    for key in range(1, CUSTOMERS + 1):
        yield f"{key},{place_of(bits)},{SEGMENTS[bits(32) % 5]}\n"


def supplier(bits, _):
    for key in range(1, SUPPLIERS + 1):
        yield f"{key},{place_of(bits)}\n"


def part(bits, _):
    for key in range(1, PARTS_OF_FACTS + 1):
        maker, category, brand = (bits(32) % size + 1 for size in (5, 5, 40))
        yield f"{key},MFGR#{maker},MFGR#{maker}{category},MFGR#{maker}{category}{brand}\n"


def notes(bits, count):
    """Texts of 3 to 10 words, some of them not ASCII."""
    for key in range(1, count + 1):
        more, *words = parts(bits(80), 8, *[len(WORDS)] * 10)
        yield f"{key},{' '.join(WORDS[word] for word in words[:more + 3])}\n"


def writes(bits, count, has_changes, base):
    """INSERTs of 1 to 100 rows, DELETEs and UPDATEs of up to 10. Those begin at places below `base`, which are spread over
    a table of any size, so that a write has as many rows in each."""
    key, used = 100_000_000, set()
    for _ in range(count):
        kind = bits(32) % 5 if has_changes else 0
        if kind <= 2:
            first, key = key + 1, key + (1, 1, 2, 5, 10, 20, 50, 100)[bits(3)]
            yield {"op": "insert", "rows": [fact(bits, it) for it in range(first, key + 1)]}
            continue
        width = 1 + bits(32) % 10
        at = next(it for it in iter(lambda: bits(32) % (base - 10), None) if it not in used)
        used.add(at)
        change = {"op": "delete"} if kind == 3 else {"op": "update", "add": bits(32) % 1000 - 500}
        yield {**change, "at": at, "width": width}


def write(path, lines):
    """Writes a file unless it is there."""
    if os.path.exists(path):
        return
    print("making", os.path.basename(path), file=sys.stderr, flush=True)
    with open(f"{path}.part", "w", encoding="utf-8", newline="") as out:
        out.writelines(lines)
    os.rename(f"{path}.part", path)


def first_lines(path, count):
    with open(path, encoding="utf-8", newline="") as it:
        yield from itertools.islice(it, count)


def make(scale, folder):
    """Makes the files of a scale that are not there."""
    size = SCALES[scale]
    os.makedirs(folder, exist_ok=True)
    rows = {lineitem: ("lineitem4", size.lineitem4), lineorder: ("lineorder", size.lineorder), dates: ("dates", 0),
            customer: ("customer", 0), supplier: ("supplier", 0), part: ("part", 0), notes: ("notes", size.notes)}
    for seed, (made, (name, count)) in enumerate(rows.items(), 11):
        write(f"{folder}/{name}.csv", made(random.Random(seed).getrandbits, count))
    write(f"{folder}/lineitem.csv", first_lines(f"{folder}/lineitem4.csv", size.lineitem))
    for count in size.facts:
        write(f"{folder}/fact{count}.csv", first_lines(f"{folder}/lineorder.csv", count))
    for seed, name in enumerate(("inserts", "mixed"), 21):
        listed = list(writes(random.Random(seed).getrandbits, size.writes, name == "mixed", size.facts[0]))
        write(f"{folder}/{name}.json", [json.dumps(listed)])
