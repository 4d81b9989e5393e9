#!/usr/bin/env python3
"""plot.py FOLDER: draws answers of report.sql, which it reads from standard input, by pandas and matplotlib.

    ./colview run examples/report/report.sql --dir examples/report | python3 examples/report/plot.py docs/report"""
import sys
from pathlib import Path

sys.path.append(str(Path(__file__).parent.parent))
from answers import answers, plt, save  # noqa: E402

before, after = [it for it in answers(sys.stdin) if list(it) == ["in_year", "changes", "days", "busiest"]]
figure, axes = plt.subplots(figsize=(7.2, 3))
axes.bar(before["in_year"], before["changes"], color="#c9d6e3", label="clocks turned")
axes.bar(before["in_year"], before["busiest"], color="#2980b9", label="on the busiest day")
axes.step(after["in_year"], after["changes"], where="mid", color="#c0392b", label="without Europe from 2022 on")
axes.set(xticks=before["in_year"][::2], ylabel="turns of a zone's clock")
axes.legend(frameon=False, ncol=3, loc="upper center", bbox_to_anchor=(0.5, 1.14))
save(figure, sys.argv[1], "turns")
