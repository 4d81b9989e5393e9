"""Columns of many values, made at random."""
# each table, and each view of groups, has these columns; g has numbers with which SQLite cannot calculate
KINDS = {"k": "n", "a": "n", "g": "n", "b": "t", "d": "d"}
EDGES = (-2**63, 2**63 - 1, -2**62, 2**32, -2**32 - 1, 2**53 + 1, 0, -1)
SPANS = (2, 20, 127, 256, 257, 5000, 65535, 65537, 10**6)
OPENINGS = ("w", "w", "w", "", "é", "\\", "a,b ", 'say "', "W")


def text_of(number):
    """An entry of the list of texts, which are not in order; some are long."""
    opening = OPENINGS[number % 9]
    return "" if number == 12 else f"{opening}{number * 7919 % 5003:04}{'x' * 90 if number % 61 == 3 else ''}"


TEXTS = [text_of(number) for number in range(5000)]
DAYS = [f"{2000 + n // 336}-{n // 28 % 12 + 1:02}-{n % 28 + 1:02}" for n in range(3000)] + ["0001-01-01", "9999-12-31"]


def constant_of(name, value):
    """A value of a column as a constant."""
    if value is None or isinstance(value, int):
        return "NULL" if value is None else str(value)
    return ("DATE " if KINDS[name] == "d" else "") + "'%s'" % value.replace("'", "''")


class Columns:
    """Columns of tables that are joined by their numbers k, of which there are so many."""

    def __init__(self, of):
        self.of, self.keys = of, of.choice((300, 3000, 70000, 200000))

    def numbers(self, count, low, span):
        """Numbers from the least one on: each alike, rising, in runs, each another one, or any."""
        turn = self.of.randrange(6)
        if turn == 0:
            return [low + self.of.randrange(span)] * count
        if turn == 1:
            step = self.of.choice((0, 1, 3, 17))
            return [low + (place * step) % span for place in range(count)]
        if turn == 2:
            return self.in_runs(count, range(low, low + span))
        if turn == 3 and span >= count:
            return self.of.sample(range(low, low + span), count)
        return self.of.choices(range(low, low + span), k=count)

    def in_runs(self, count, pool):
        values = []
        while len(values) < count:
            values += [self.of.choice(pool)] * self.of.choice((1, 2, 60, 900, 4000))
        return values[:count]

    def with_nulls(self, values):
        """The same with NULL in some places: none, few, many, a stretch, or all."""
        turn, count = self.of.randrange(7), len(values)
        if turn == 0:
            places = self.of.sample(range(count), count // 100 + 1)
        elif turn == 1:
            places = self.of.sample(range(count), count // 3)
        elif turn == 2:
            start = self.of.randrange(count)
            places = range(start, min(count, start + self.of.choice((64, 1024, 3000))))
        else:
            return [None] * count if turn == 3 and self.of.randrange(4) == 0 else values
        for place in places:
            values[place] = None
        return values

    def column(self, name, count):
        """So many values of the column of a name."""
        if name == "k":
            return self.numbers(count, -self.of.choice((0, 5, self.keys // 2)), self.keys)
        if name == "a":
            return self.numbers(count, self.of.choice((0, 0, -3, -128, -10**6)), self.of.choice(SPANS))
        if name == "g":
            low = self.of.choice((-2**63, 2**62, -2**40, 2**31 - 9, 0))
            if self.of.randrange(3) == 0:
                return self.of.choices(EDGES, k=count)
            return self.numbers(count, low, self.of.choice((9, 2**16, 2**34, 2**62)))
        if name == "b":
            pool = TEXTS[:self.of.choice((1, 20, 20, 300, 5000))]
            return self.in_runs(count, pool) if self.of.randrange(4) == 0 else self.of.choices(pool, k=count)
        pool = self.of.choice((DAYS[:1], DAYS[:30], DAYS[:3000], DAYS))
        return self.in_runs(count, pool) if self.of.randrange(4) == 0 else self.of.choices(pool, k=count)
