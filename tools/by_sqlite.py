"""What statements have to answer: SQLite carries them out, and what the language says of lists and of lines is done here."""
import re
import sqlite3

PARTS = {"YEAR": "1, 4", "MONTH": "6, 2", "DAY": "9, 2"}


class WideSum:
    """A total of any width, which SQLite hands on as a text."""

    def __init__(self):
        self.total = None

    def step(self, number):
        if number is not None:
            self.total = (self.total or 0) + number

    def finalize(self):
        return None if self.total is None else str(self.total)


class Fields(dict):
    """Texts and days as they are printed, and as a file has them; each is worked out once."""

    def __missing__(self, text):
        said = "\\" + text if text.startswith("\\") else text
        self[text] = '"%s"' % said.replace('"', '""') if re.search('[,"\r\n]', said) else said
        return self[text]


FIELDS = Fields({None: "\\N"})


def lines_of(columns):
    """The lines of rows, which are given by columns."""
    printed = [[str(it) if isinstance(it, int) else FIELDS[it] for it in values] for values in columns]
    if len(printed) == 1:
        return "".join([(it or '""') + "\n" for it in printed[0]])
    return "".join([",".join(row) + "\n" for row in zip(*printed)])


def listed(rows, keys, limit):
    """The one list of these rows: by the keys, then by all columns, with NULL as the greatest value."""
    rows.sort(key=lambda row: [(it is None, 0 if it is None else it) for it in row])
    for place, falls in reversed(keys):
        rows.sort(key=lambda row: (row[place] is None, 0 if row[place] is None else row[place]), reverse=falls)
    return rows if limit is None else rows[:limit]


def said(text):
    """A statement as SQLite takes it. Totals of a column g are of any width."""
    text = re.sub(r"EXTRACT\((\w+) FROM ([\w.]+|\w+\([\w.]+\))\)", lambda it: f"CAST(substr({it[2]}, {PARTS[it[1]]}) AS INTEGER)", text)
    return re.sub(r"SUM\((\w+\.g)\)", r"wide_sum(\1)", text.replace("DATE '", "'"))


class Other:
    """SQLite, with rows of its own."""

    def __init__(self, steps, most):
        self.given, self.most = steps, most
        self.base = sqlite3.connect(":memory:", isolation_level=None)
        self.base.execute("PRAGMA case_sensitive_like = ON")
        self.base.create_aggregate("wide_sum", 1, WideSum)
        self.steps = 0

    def limited(self):
        """Whether a query has taken too many steps."""
        self.steps -= 10_000
        return self.steps < 0

    def carry_out(self, text):
        """How many rows a statement changes."""
        return self.base.execute(said(text)).rowcount

    def insert(self, table, columns):
        self.base.execute("BEGIN")
        self.base.executemany(f"INSERT INTO {table} VALUES ({', '.join('?' * len(columns))})", zip(*columns))
        self.base.execute("COMMIT")

    def rows(self, text):
        """The rows of a query in any order, or None where there are too many or it takes too long."""
        self.steps = self.given
        self.base.set_progress_handler(self.limited, 10_000)
        try:
            rows = self.base.execute(said(text)).fetchmany(self.most + 1)
        except sqlite3.OperationalError as error:
            if str(error) != "interrupted":
                raise
            rows = None
        self.base.set_progress_handler(None, 0)
        return None if rows is None or len(rows) > self.most else rows
