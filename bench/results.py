"""What a run of a benchmark gave: figures by measure, workload and system, and whether the answers agree."""
import json


class Results:
    def __init__(self, title, about):
        self.title, self.about = title, about
        self.figures, self.units, self.notes = {}, {}, []
        self.is_right = True

    def put(self, measure, unit, workload, system, figure):
        """Keeps a figure; of several the least counts."""
        self.units[measure] = unit
        row = self.figures.setdefault(measure, {}).setdefault(workload, {})
        row[system] = min(row.get(system, figure), figure)

    def note(self, text):
        if text not in self.notes:
            self.notes.append(text)

    def compare(self, workload, answers):
        """Whether all systems gave the same answer, a bag of rows."""
        camps = []
        for system, answer in answers.items():
            camp = next((it for it in camps if it[0] == answer), None)
            if camp:
                camp[1].append(system)
            else:
                camps.append((answer, [system]))
        if len(camps) > 1:
            self.is_right = False
            told = "; ".join(f"{', '.join(systems)}: {str(answer)[:60]}" for answer, systems in camps)
            self.note(f"{workload}: the answers differ: {told}")

    def systems(self, measure):
        return [it for it in self.about if any(it in row for row in self.figures[measure].values())]

    def rows(self, measure):
        """The header and the rows of a table; a peer's column of ratios says what colview takes of its time."""
        systems = self.systems(measure)
        peers = [it for it in systems if it not in ("colview", "limit")] if "colview" in systems else []
        yield [f"{measure}, {self.units[measure]}", *systems, *([f"to the best of {len(peers)}"] if peers else [])]
        for workload, row in self.figures[measure].items():
            least = min((row[it] for it in peers if it in row), default=None)
            ratio = f"{row['colview'] / least:.2f}" if least and "colview" in row else ""
            yield [workload, *(shown(row.get(it)) for it in systems), *([ratio] if peers else [])]

    def text(self, is_markdown=False):
        """All tables, and what else is to be said."""
        parts = [aligned(list(self.rows(measure)), is_markdown) for measure in self.figures]
        said = [f"{name}: {about}" for name, about in self.about.items()] + self.notes
        said.append("all answers agree" if self.is_right else "THE ANSWERS DIFFER")
        return "\n\n".join([self.title, *parts, "\n".join(f"- {it}" for it in said)]) + "\n"

    def write(self, path):
        with open(path, "w", encoding="utf-8") as out:
            json.dump(vars(self), out, indent=1)
            out.write("\n")


def read(path):
    """The results that were written to a file."""
    results = Results("", {})
    with open(path, encoding="utf-8") as it:
        vars(results).update(json.load(it))
    return results


def shown(figure):
    """A figure with three digits that count."""
    if figure is None:
        return ""
    if figure >= 100:
        return f"{figure:,.0f}"
    return f"{figure:.1f}" if figure >= 10 else f"{figure:.2f}" if figure >= 1 else f"{figure:.3f}"


def aligned(rows, is_markdown):
    widths = [max(len(row[place]) for row in rows) for place in range(len(rows[0]))]
    edge, bar = ("| ", " | ") if is_markdown else ("", "  ")
    lines = []
    for row in rows:
        cells = [cell.rjust(width) if place else cell.ljust(width) for place, (cell, width) in enumerate(zip(row, widths))]
        lines.append(edge + bar.join(cells) + edge[::-1])
    if is_markdown:
        rules = ("-" * (width + 1) + (":" if place else "-") for place, width in enumerate(widths))
        lines.insert(1, f"|{'|'.join(rules)}|")
    return "\n".join(lines)
