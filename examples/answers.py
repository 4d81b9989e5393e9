"""How answers go on to pandas, and a picture to a page."""
import io

import matplotlib

matplotlib.use("Agg")
import matplotlib.pyplot as plt
import pandas as pd

plt.rcParams.update({"font.size": 9, "svg.hashsalt": "colview", "axes.spines.top": False, "axes.spines.right": False,
                     "figure.constrained_layout.use": True})


def answers(lines):
    """Each answer of rows, as a frame: `rows N`, a header, N lines."""
    for line in lines:
        if line.startswith("rows "):
            rows = [next(lines) for _ in range(int(line.split()[1]) + 1)]
            yield pd.read_csv(io.StringIO("".join(rows)), na_values="\\N", keep_default_na=False)


def save(figure, folder, name):
    figure.savefig(f"{folder}/{name}.svg", metadata={"Date": None})
