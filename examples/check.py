#!/usr/bin/env python3
"""check.py NAME: answers examples/NAME/NAME.sql by sqlite over the same files, and compares the answers with NAME.out."""
import csv
import re
import sqlite3
import sys
from pathlib import Path

NAME = sys.argv[1]
HERE = Path(__file__).parent / NAME
db = sqlite3.connect(":memory:")
db.execute("PRAGMA case_sensitive_like = ON")


def copy(table, name):
    columns = db.execute(f"PRAGMA table_info({table})").fetchall()
    with open(HERE / name, encoding="utf-8", newline="") as file:
        records = list(csv.reader(file))
    for place, record in enumerate(records, 1):
        numbers = [field for field, column in zip(record, columns) if column[2] == "INTEGER"]
        if len(record) != len(columns) or not all(re.fullmatch(r"-?\d+", number) for number in numbers):
            return [f"error 26 bad CSV record {place}"]
    rows = [[None if field == r"\N" else field for field in record] for record in records]
    db.executemany(f"INSERT INTO {table} VALUES ({', '.join('?' * len(columns))})", rows)
    return [f"ok {len(rows)}"]


def printed(value):
    text = r"\N" if value is None else str(value)
    return '"' + text.replace('"', '""') + '"' if re.search('[,"\r\n]', text) else text


def select(query):
    """The rows are sorted here and not by sqlite: by the key of ORDER BY, then by all columns, NULL behind the rest."""
    parts = re.fullmatch(r"(.*?)(?: ORDER BY (\w+)( DESC)?)?(?: LIMIT (\d+))?", query)
    query, key, turned, limit = parts.groups()
    cursor = db.execute(query)
    names = [column[0] for column in cursor.description]
    rows = sorted(cursor, key=lambda row: [(value is None, value) for value in row])
    if key:
        place = names.index(key)
        rows.sort(key=lambda row: (row[place] is None, row[place]), reverse=bool(turned))
    rows = rows[: int(limit) if limit else None]
    return [f"rows {len(rows)}", ",".join(names)] + [",".join(map(printed, row)) for row in rows]


def answer(statement):
    words = statement.split()
    if words[0] == "COPY":
        return copy(words[1], words[3].strip("'"))
    statement = statement.replace("DATE '", "'")
    statement = re.sub(r"EXTRACT\(YEAR FROM (\w+)\)", r"CAST(strftime('%Y', \1) AS INTEGER)", statement)
    statement = re.sub(r"EXTRACT\(MONTH FROM (\w+)\)", r"CAST(strftime('%m', \1) AS INTEGER)", statement)
    if words[0] == "SELECT":
        return select(statement)
    if words[0] == "MOVE":
        return ["ok"]
    count = db.execute(statement.partition(" SORT BY ")[0]).rowcount
    return [f"ok {count}" if words[0] in ("INSERT", "UPDATE", "DELETE") else "ok"]


script = re.sub(r"--.*", "", (HERE / f"{NAME}.sql").read_text("utf-8"))
lines = [line for piece in script.split(";") if piece.strip() for line in answer(" ".join(piece.split()))]
told = (HERE / f"{NAME}.out").read_text("utf-8").splitlines()
for number, (mine, theirs) in enumerate(zip(lines, told), 1):
    if mine != theirs:
        print(f"line {number}: sqlite says {mine!r}, {NAME}.out {theirs!r}")
if lines != told:
    sys.exit(f"sqlite gives {len(lines)} lines, {NAME}.out has {len(told)}: they differ")
print(f"{len(lines)} lines, the same by sqlite")
