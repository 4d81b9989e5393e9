"""Scripts over large tables, made at random, with the answer of each statement."""
import random
import re
import sqlite3
from collections import Counter
from typing import NamedTuple

from by_sqlite import Other, lines_of, listed
from large_columns import DAYS, KINDS, TEXTS, Columns, constant_of

TYPES = {"n": "INTEGER", "t": "TEXT", "d": "DATE"}
SMALL = (1025, 1025, 1500, 2047, 2048, 2049, 3000, 3000, 5000, 5000, 5000)
SIZES = (*SMALL, 9000, 9000, 9000, 9000, 20000, 20000, 65535, 65536, 65537, 70000)
# how many steps SQLite may take for a query, and how many rows a result may have: what needs more is not asked
STEPS, MOST = 3_000_000, 30_000
WORDS = ("=", "<>", "<", "<=", ">", ">=")
PATTERNS = ("w%", "%1", "%00%", "w___2%", "%é%", "_00%", "%2_", "%", "", "w0001", "%,b%", "W%9")


class Said(NamedTuple):
    """A statement, its answer, whether it moves rows, and the columns of its file."""
    text: str
    answer: str
    is_move: bool
    columns: tuple


class Maker:
    """One script, made at random, with the answer of each of its statements."""

    def __init__(self, name, folder):
        self.of, self.folder, self.other = random.Random(name), folder, Other(STEPS, MOST)
        self.said, self.files, self.told = [], 0, Counter()
        # what conditions ask for: of each column some values that it has, and some beside these
        self.probes = {"k": [0], "a": [0], "g": [-1], "b": [TEXTS[0]], "d": [DAYS[0]]}
        # of each table: the columns that are never NULL, and how many rows and segments were made of those not moved
        self.never, self.waiting, self.segments = {}, Counter(), Counter()
        # the columns of the files of each table, and how often a key is in some of them
        self.columns, self.counts, self.largest = {}, {}, 0
        self.made = Columns(self.of)

    def say(self, text, answer="ok\n", is_move=False, columns=()):
        self.said.append(Said(f"{text};\n", answer, is_move, columns))

    # -- rows

    def copy(self, table, count):
        """COPY of a file of so many rows, whose values the conditions then ask for."""
        columns = []
        for name in KINDS:
            values = self.made.column(name, count)
            columns.append(values if name in self.never[table] else self.made.with_nulls(values))
            found = [it for it in self.of.sample(columns[-1], 6) if it is not None]
            self.columns[table][name] += columns[-1]
            beside = [it + self.of.choice((-1, 1)) for it in found[:2] if isinstance(it, int)]
            self.probes[name] += found + [max(it, -2**63) for it in beside]
        self.files += 1
        with open(f"{self.folder}/{self.files}.csv", "w", encoding="utf-8", newline="") as out:
            out.write(lines_of(columns))
        self.other.insert(table, columns)
        self.say(f"COPY {table} FROM '{self.files}.csv'", f"ok {count}\n", columns=(table, *columns))
        self.waiting[table] += count
        self.told["rows"] += count

    def move(self, table, count):
        """MOVE of some rows or of all, MERGE, or neither."""
        turn = self.of.randrange(9)
        if turn == 0:
            return
        if turn == 1:
            self.segments[table] = min(2, self.segments[table])
            self.say(f"MERGE {table}", is_move=True)
            return
        some = self.of.choice((1, 1023, 1024, 1025, 3000, count // 2, 65536) if turn < 5 else (16777216,))
        moved = min(some, self.waiting[table])
        self.waiting[table] -= moved
        self.segments[table] += -(-moved // 65536)
        self.say(f"MOVE {table} {some}", is_move=True)

    def table(self, name, count):
        self.columns[name] = {it: [] for it in KINDS}
        self.never[name] = [it for it in KINDS if self.of.randrange(4) == 0]
        never = {it: " NOT NULL" if it in self.never[name] else "" for it in KINDS}
        columns = ", ".join(f"{it} {TYPES[kind]}{never[it]}" for it, kind in KINDS.items())
        sort = self.of.sample(list(KINDS), self.of.choice((0, 0, 1, 2)))
        self.say(f"CREATE TABLE {name}({columns}){' SORT BY ' + ', '.join(sort) if sort else ''}")
        self.other.carry_out(f"CREATE TABLE {name}({columns})")
        parts = self.of.choice((1, 2, 3))
        for part in range(parts):
            self.copy(name, count // parts + (count % parts if part == 0 else 0))
            self.move(name, count)
            if self.of.randrange(3) == 0:
                self.write(name)

    # -- expressions

    def constant(self, name, is_never_null=False):
        return constant_of(name, self.of.choice(self.probes[name]) if self.of.randrange(40) or is_never_null else None)

    def value(self, names, depth=1):
        """A number worked out from small ones of these sources."""
        turn = self.of.randrange(9) if depth else self.of.randrange(3)
        if turn < 3:
            return f"{self.of.choice(names)}.{self.of.choice('ka')}"
        if turn == 3:
            return f"-({self.value(names, 0)})"
        if turn < 6:
            return f"({self.value(names, 0)} {self.of.choice('+-')} {self.of.choice((self.value(names, 0), self.constant('a')))})"
        if turn == 6:
            return f"({self.value(names, 0)} * {self.of.choice((-1, 0, 2, 3, -7))})"
        if turn == 7:
            return f"({self.value(names, 0)} * {self.value(names, 0)})"
        return f"EXTRACT({self.of.choice(('YEAR', 'MONTH', 'DAY'))} FROM {self.of.choice(names)}.d)"

    def item(self, names):
        """A column or what is worked out."""
        return self.value(names) if self.of.randrange(3) == 0 else f"{self.of.choice(names)}.{self.of.choice(list(KINDS))}"

    def test(self, names):
        name = self.of.choice("kaaagbbd")
        column, turn, no = f"{self.of.choice(names)}.{name}", self.of.randrange(11), self.of.choice(("", "", "NOT "))
        if turn == 0:
            return f"{column} IS {no}NULL"
        if turn < 3:
            ends = self.of.choices(self.probes[name], k=2)
            if self.of.randrange(6):
                ends.sort()
            return f"{column} {no}BETWEEN {constant_of(name, ends[0])} AND {constant_of(name, ends[1])}"
        if turn < 5:
            return f"{column} {no}IN ({', '.join(self.constant(name) for _ in range(self.of.choice((1, 2, 5, 30))))})"
        if turn == 5:
            return f"{self.of.choice(names)}.b {no}LIKE '{self.of.choice(PATTERNS)}'"
        if turn == 6:
            return f"{self.constant(name)} {self.of.choice(WORDS)} {column}"
        if turn == 7:
            return f"{self.value(names)} {self.of.choice(WORDS)} {self.of.choice((self.value(names), self.constant('a')))}"
        if turn == 8:
            return f"{column} {self.of.choice(WORDS)} {self.of.choice(names)}.{name}"
        return f"{column} {self.of.choice(WORDS)} {self.constant(name)}"

    def condition(self, names, depth=2):
        turn = self.of.randrange(6)
        if not depth or turn > 4:
            return self.test(names)
        if turn == 0:
            return f"NOT ({self.condition(names, depth - 1)})"
        return f"({self.condition(names, depth - 1)} {'AND' if turn > 2 else 'OR'} {self.condition(names, depth - 1)})"

    def where(self, names):
        """Some parts that AND joins, each of one source or of all."""
        count = self.of.choice((0, 0, 1, 1, 1, 2))
        parts = [self.condition([self.of.choice(names)] if self.of.randrange(3) else names, 1) for _ in range(count)]
        return f" WHERE {' AND '.join(parts)}" if parts else ""

    # -- statements

    def query(self, tables):
        """A query of these sources. Whether it is said: not where it is too much for SQLite, and seldom without a row."""
        names = ["p", "q", "r"][:len(tables)]
        source = self.joined(names, tables)
        if source is None:
            return False
        is_distinct, is_grouped = self.of.randrange(4) == 0, self.of.randrange(2)
        if is_grouped:
            items, behind = self.grouped(names)
        else:
            items, behind = [self.item(names) for _ in range(self.of.randrange(1, 5))], ""
        shown = ", ".join(f"{item} AS x{i}" for i, item in enumerate(items))
        text = f"SELECT {'DISTINCT ' if is_distinct else ''}{shown} FROM {source}{self.where(names)}{behind}"
        some = self.of.sample(range(len(items)), self.of.randrange(len(items) + 1))
        keys = [(place, self.of.randrange(2) == 1) for place in some]
        limit = self.of.choice((None, None, None, 0, 1, 5, 100, 1023, 1024, 1025, 3000))
        rows = self.other.rows(text)
        if rows is None or (not rows and self.of.randrange(5)):
            return False
        wide = [place for place, item in enumerate(items) if re.fullmatch(r"SUM\(\w\.g\)", item)]
        if wide:
            rows = [tuple(int(it) if place in wide and it is not None else it for place, it in enumerate(row)) for row in rows]
        rows = listed(rows, keys, limit)
        if keys:
            said = [f"{self.of.choice((place + 1, f'x{place}'))}{' DESC' if falls else ''}" for place, falls in keys]
            text += f" ORDER BY {', '.join(said)}"
        header = ",".join(f"x{i}" for i in range(len(items)))
        self.say(text + (f" LIMIT {limit}" if limit is not None else ""), f"rows {len(rows)}\n{header}\n{lines_of(zip(*rows))}")
        several = sum(self.segments[it] > 1 for it in tables)
        self.told["queries"] += 1
        self.told["of several segments"] += several > 0
        self.told["joins"] += len(tables) > 1
        self.told["joins with several segments on two sides"] += several > 1
        self.told["of groups"] += is_grouped
        self.told["without a row"] += not rows
        return True

    def grouped(self, names):
        """The items of a query of groups, and what stands behind WHERE."""
        keys = [f"{self.of.choice(names)}.{it}" for it in self.of.sample("kabdg", self.of.choice((0, 1, 1, 2, 2)))]
        items = [key for key in keys if self.of.randrange(4)]
        for _ in range(self.of.randrange(1, 4)):
            name = self.of.choice(names)
            items.append(self.of.choice((
                "COUNT(*)", f"COUNT({self.item(names)})", f"SUM({self.value(names)})", f"SUM({name}.g)",
                f"{self.of.choice(('MIN', 'MAX'))}({self.item(names)})", f"MAX({name}.a) - MIN({name}.a) * 2")))
        behind = f" GROUP BY {', '.join(keys)}" if keys else ""
        if self.of.randrange(3) == 0:
            tests = ("COUNT(*) > 1", "COUNT(*) < 3", f"MIN({names[0]}.a) > {self.constant('a')}", f"COUNT({names[0]}.b) >= 20",
                     f"MAX({names[0]}.d) IS NOT NULL AND SUM({names[0]}.a) <> 7")
            behind += f" HAVING {self.of.choice(tests)}"
        return items, behind

    def joined(self, names, tables):
        """FROM of these sources, each joined to one before it by a key of one or two columns by which some rows go together,
        and not too many, or None."""
        text = f"{tables[0]} {names[0]}"
        for i in range(1, len(names)):
            for _ in range(8):
                before = self.of.randrange(i)
                keys = self.of.choice(("kk", "kk", "kk", "kk aa", "kk bb", "bb kk", "kk dd", "ak", "bb", "bb dd", "gg")).split()
                if 1 <= self.pairs(tables[before], tables[i], keys) <= 60_000:
                    break
            else:
                return None
            on = " AND ".join(f"{names[before]}.{key[0]} = {names[i]}.{key[1]}" for key in keys)
            text += f" JOIN {tables[i]} {names[i]} ON {on}"
        return text

    def pairs(self, table, joined, keys):
        """About how many rows two tables have together by a key, from the files that they were made of."""
        place, here = (joined, *(key[1] for key in keys)), [self.columns[joined][key[1]] for key in keys]
        if self.counts.get(place, (0,))[0] != len(here[0]):
            self.counts[place] = len(here[0]), Counter(zip(*here))
        there = [self.columns[table][key[0]] for key in keys]
        some = self.of.choices(range(len(there[0])), k=200)
        rows = [tuple(it[row] for it in there) for row in some]
        return sum(self.counts[place][1][row] for row in rows if None not in row) * len(there[0]) // 200

    def write(self, name):
        """A few new rows, or a DELETE or an UPDATE that leaves most of the rows as they are."""
        turn = self.of.randrange(5)
        if turn == 0:
            rows = ", ".join("(%s)" % ", ".join(self.constant(it, it in self.never[name]) for it in KINDS) for _ in range(3))
            text = f"INSERT INTO {name} VALUES {rows.replace(str(2**63), '0')}"
        elif turn < 3:
            text = f"DELETE FROM {name} WHERE {self.condition([name], 1)}"
        else:
            a, b, d = (self.constant(it) for it in "abd")
            sets = (f"a = {a}", f"a = -a, b = {b}", "k = k + 1", f"b = {b}, d = {d}", "g = k")
            text = f"UPDATE {name} SET {self.of.choice(sets)} WHERE {self.condition([name], 1)}"
        all_rows = self.other.rows(f"SELECT COUNT(*) FROM {name}")[0][0]
        self.other.base.execute("BEGIN")
        try:
            changed = self.other.carry_out(text)
        except sqlite3.IntegrityError:
            self.other.base.execute("ROLLBACK")
            self.say(text, "error 20 NULL in a NOT NULL column\n")
            return
        if changed * 2 > all_rows:
            self.other.base.execute("ROLLBACK")
            return
        self.other.base.execute("COMMIT")
        self.waiting[name] += 0 if text.startswith("DELETE") else changed
        self.say(text, f"ok {changed}\n")
        self.told["writes"] += 1

    def view(self, table):
        """A view of groups, with the columns of a table."""
        total = self.of.choice(("COUNT(*)", "SUM(a)"))
        where = self.of.choice(("", f" WHERE {self.condition([table], 1)}"))
        text = f"CREATE VIEW v AS SELECT k, MAX(a) AS a, {total} AS g, MIN(b) AS b, MAX(d) AS d FROM {table}{where} GROUP BY k"
        self.other.carry_out(text)
        rows = self.other.base.execute(f"SELECT {', '.join(KINDS)} FROM v").fetchall()
        self.columns["v"] = {name: list(values) for name, values in zip(KINDS, zip(*rows))}
        self.say(text)
        return bool(rows)

    def script(self):
        tables, sizes = ["t", "u", "w"][:self.of.choice((1, 2, 2, 3))], {}
        for name in tables:
            sizes[name] = self.of.choice(SIZES if len(sizes) == 0 or self.of.randrange(4) == 0 else SMALL)
            self.table(name, sizes[name])
            self.largest = max(sizes.values())
        sources = list(tables)
        if self.of.randrange(6) == 0:
            sources += ["v"] if self.view(tables[-1]) else []
        for turn in range(3):
            for _ in range(3):
                count = self.of.choice((1, 1, 2, 2, 3))
                for _ in range(5):
                    if self.query([self.of.choice(sources) for _ in range(count)]):
                        break
            if turn < 2:
                name = self.of.choice(tables)
                self.copy(name, self.of.choice((64, 1100))) if self.of.randrange(4) == 0 else self.write(name)
                self.move(self.of.choice(tables), sizes[name])
        return self.said
