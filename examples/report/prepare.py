#!/usr/bin/env python3
"""Makes the files of the report from Debian's package tzdata: times in whole minutes, no header line, \\N for NULL."""
import csv
import re
from datetime import datetime, timedelta, timezone
from pathlib import Path
from zoneinfo import ZoneInfo

TZDATA = Path("/usr/share/zoneinfo")
HERE = Path(__file__).parent
BEGIN, END = (datetime(year, 1, 1, tzinfo=timezone.utc) for year in (2010, 2025))
MINUTE, DAY = timedelta(minutes=1), timedelta(days=1)
NULL = r"\N"


def table(name):
    """The lines of a table of tzdata, as lists of fields."""
    lines = (TZDATA / name).read_text("utf-8").splitlines()
    return [line.split("\t") for line in lines if not line.startswith("#")]


def clock(zone, instant):
    """How many minutes the clock is ahead of UTC."""
    return instant.astimezone(zone).utcoffset() // MINUTE


def arc_minutes(sign, degrees, minutes, seconds):
    """A latitude or a longitude as whole minutes of arc."""
    size = int(degrees) * 60 + int(minutes) + round(int(seconds or 0) / 60)
    return -size if sign == "-" else size


def zones():
    """A row for each zone; report.sql tells its columns."""
    for code, place, name, *places in table("zone.tab"):
        north, east = (arc_minutes(*part) for part in re.findall(r"([+-])(\d{2,3}?)(\d\d)(\d\d)?(?=[+-]|$)", place))
        january, july = (clock(ZoneInfo(name), datetime(2024, month, 1, tzinfo=timezone.utc)) for month in (1, 7))
        yield name, code, name.split("/")[0], north, round(east / 15), january, july, *(places or [NULL])


def changes(name):
    """A row for each change of a zone's clock, found by halving the day in which it lies."""
    zone, day = ZoneInfo(name), BEGIN
    while day < END:
        low, high = day, day + DAY
        before, after = clock(zone, low), clock(zone, high)
        while before != after and high - low > MINUTE:
            middle = low + (high - low) // MINUTE // 2 * MINUTE
            low, high = (middle, high) if clock(zone, middle) == before else (low, middle)
        if before != after:
            shown, called = high + before * MINUTE, high.astimezone(zone).tzname()
            at_minute = shown.hour * 60 + shown.minute
            yield name, shown.date(), at_minute, before, after, called if called.isalpha() else NULL
        day += DAY


def write(name, rows):
    with open(HERE / name, "w", encoding="utf-8", newline="") as file:
        csv.writer(file, lineterminator="\n").writerows(rows)


write("countries.csv", table("iso3166.tab"))
write("zones.csv", zones())
write("changes.csv", (change for zone in zones() for change in changes(zone[0])))
# The zones once more, as they come out where tabs are turned into commas and no field is quoted.
(HERE / "zones-unquoted.csv").write_text("".join(",".join(map(str, zone)) + "\n" for zone in zones()), "utf-8")
