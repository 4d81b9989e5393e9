#!/usr/bin/env python3
"""plot.py FOLDER: draws answers of weather.sql, which it reads from standard input, by pandas and matplotlib.

    ./colview run examples/weather/weather.sql --dir examples/weather | python3 examples/weather/plot.py docs/weather"""
import sys
from pathlib import Path

sys.path.append(str(Path(__file__).parent.parent))
from answers import answers, plt, save  # noqa: E402

FOLDER = sys.argv[1]


def draw_rain(months):
    """Rain of each month, a line for each year, over the range of the four."""
    figure, axes = plt.subplots(figsize=(7.2, 3))
    rain = months.assign(rain=months["rain"] / 10).pivot(index="in_month", columns="in_year", values="rain")
    axes.fill_between(rain.index, rain.min(axis=1), rain.max(axis=1), color="#dce6f0")
    for year, color in zip(rain, ("#7f8c8d", "#16a085", "#2980b9", "#c0392b")):
        axes.plot(rain.index, rain[year], color=color, marker="o", markersize=3, label=str(year))
    axes.set(xticks=range(1, 13), xlabel="month", ylabel="rain in Seattle, mm")
    axes.legend(frameon=False, ncol=4)
    save(figure, FOLDER, "rain")


def draw_hours(hours, warmer):
    """The usual temperature by hour in both cities, and on how many days of July Seattle is the warmer one."""
    figure, (above, below) = plt.subplots(2, 1, figsize=(7.2, 4.4), sharex=True, height_ratios=(3, 2))
    for (city, rows), color in zip(hours.groupby("city"), ("#c0392b", "#2980b9")):
        celsius = (rows["total"] / rows["days"] / 10 - 32) / 1.8
        above.plot(rows["hour"], celsius, color=color, marker="o", markersize=3, label=city)
    above.set(ylabel="mean over the year, °C")
    above.legend(frameon=False)
    below.bar(warmer["hour"], warmer["days"], color="#2980b9")
    below.set(xticks=range(0, 24, 3), yticks=(0, 10, 20, 31), xlabel="hour of the day")
    below.set_ylabel("days of July on\nwhich Seattle is warmer")
    save(figure, FOLDER, "hours")


frames = {tuple(it): it for it in answers(sys.stdin)}
draw_rain(frames["in_year", "in_month", "days", "rain", "warmest", "coldest"])
draw_hours(frames["city", "hour", "days", "total"], frames["hour", "days"])
