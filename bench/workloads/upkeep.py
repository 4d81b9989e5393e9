"""A view of groups over three tables, and writes with a read of the whole view behind each."""
import json

from workloads.tables import HERE, SCALES, SCHEMA


class Upkeep:
    """Writes to `fact`, a table of the first rows of lineorder, and what is read behind each: the view `summary`, or its
    query worked out anew."""
    table, source, view, others = "fact", "lineorder", "summary", ("customer", "dates")

    def __init__(self, scale, folder, kind, size, is_kept):
        self.size, self.is_kept, self.has_changes = size, is_kept, kind == "mixed"
        with open(f"{folder}/{kind}.json", encoding="utf-8") as it:
            writes = json.load(it)
        # Working the query out grows with the table, so fewer writes are timed there.
        base, most = SCALES[scale].facts[0], len(writes)
        self.writes = writes[:most if is_kept else min(most, max(20, most * base // size // 2))]
        for write in self.writes:
            if write["op"] != "insert":
                write["low"] = 1 + write["at"] * (size // base)
                write["high"] = write["low"] + write["width"] - 1

    def query(self, system="colview"):
        return SCHEMA.text("c_join_all", system).replace(self.source, self.table)

    def read(self, system="colview"):
        return f"SELECT nation, yr, rev, n FROM {self.view}" if self.is_kept else self.query(system)

    def summary(self, system):
        """The file of the statements that make what stands for the view in another system."""
        return f"{HERE}/summary.{system}.sql"

    def statement(self, write):
        if write["op"] == "insert":
            rows = ", ".join(f"({', '.join(map(str, row))})" for row in write["rows"])
            return f"INSERT INTO {self.table} VALUES {rows}"
        where = f"WHERE id BETWEEN {write['low']} AND {write['high']}"
        if write["op"] == "delete":
            return f"DELETE FROM {self.table} {where}"
        return f"UPDATE {self.table} SET revenue = revenue + {write['add']} {where}".replace("+ -", "- ")
