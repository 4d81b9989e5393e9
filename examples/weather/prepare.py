#!/usr/bin/env python3
"""Makes the files of the example from Debian's package python3-vega-datasets: whole numbers, days as COPY reads them, and no
header line. Numbers are tenths of a millimetre, of a degree and of a metre a second."""
import csv
import shutil
from pathlib import Path

SOURCE = Path("/usr/lib/python3/dist-packages/vega_datasets/_data")
HERE = Path(__file__).parent


def records(name):
    with open(SOURCE / name, encoding="utf-8", newline="") as file:
        return list(csv.DictReader(file))


def tenths(text):
    return round(float(text) * 10)


def days():
    """A row for each day in Seattle; weather.sql tells its columns."""
    for it in records("seattle-weather.csv"):
        year, month, _ = it["date"].split("/")
        numbers = (tenths(it[name]) for name in ("precipitation", "temp_max", "temp_min", "wind"))
        yield it["date"].replace("/", "-"), int(year), int(month), *numbers, it["weather"]


def hours(city, name):
    for it in records(name):
        day, hour = it["date"].split(" ")
        yield city, day.replace("/", "-"), int(day.split("/")[1]), int(hour[:2]), tenths(it["temp"])


def write(name, rows):
    with open(HERE / name, "w", encoding="utf-8", newline="") as file:
        csv.writer(file, lineterminator="\n").writerows(rows)


write("days.csv", (day for day in days() if day[1] < 2015))
write("days-2015.csv", (day for day in days() if day[1] == 2015))
write("hours.csv", [*hours("San Francisco", "sf-temps.csv"), *hours("Seattle", "seattle-temps.csv")])
# The package's own file, and the days of 2015 as a transfer leaves them that broke off.
shutil.copyfile(SOURCE / "seattle-weather.csv", HERE / "seattle-weather.csv")
(HERE / "days-2015-cut.csv").write_bytes((HERE / "days-2015.csv").read_bytes()[:8000])
