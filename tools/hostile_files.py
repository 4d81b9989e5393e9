"""Hostile files: each record in turn a bad one, fields without an end, very large files, and files that are none; and more
rows than are sorted at once."""
import os
import random
import shutil
import threading

from hostile_cases import GIGABYTE, Case, repeated

RECORDS = 5
GOOD = {"INTEGER": b"7", "TEXT": b"tea", "DATE": b"2024-02-29"}
# bad fields of a column of each type, and the refusal of each
BAD_NUMBERS = {
    26: (b"x", b"+7", b" 7", b"7 ", b"-", b"--7", b"1.5", b"0x7", b"\\n", b"\\\\7", b"\\", b"7\0", b"\xd9\xa3", b"1e3", b'"7""'),
    19: (b"9223372036854775808", b"-9223372036854775809", b"9" * 60, b"1" * 100_000),
}
BAD_TEXTS = {24: (b"x" * 4097, "é".encode() * 2049, b"\\\\" + b"x" * 4096, b'"' + b'""' * 4097 + b'"')}
BAD_DAYS = {
    25: (b"2023-02-29", b"2024-2-29", b"0000-01-01", b"10000-01-01", b"2024-13-01", b"2024-00-10", b"2024-01-00", b" 2024-01-01",
         b"2024-01-01 ", b"2024/01/01", b"20240101", b"x", "２024-01-01".encode(), b"9" * 100_000),
    26: (b"\\x", b"\\\\2024-01-01", b"\\"),
}
BAD = {"INTEGER": BAD_NUMBERS, "TEXT": BAD_TEXTS, "DATE": BAD_DAYS}
# what no column takes: bytes that are no UTF-8, and a field more
BAD_ANYWHERE = (b"\xff", b"\xc3", b"\xc0\xaf", b"\xed\xa0\x80", b"\xf4\x90\x80\x80", b'"\xff"', b"7,7", b",", b'7,"7"', b'"7",7')
TOLD = {
    3: "source failed", 19: "number outside 64 bits", 20: "NULL in a NOT NULL column", 21: "table full", 24: "text too long",
    25: "bad date", 26: "bad CSV record ",
}
NONE = "rows 1\nn\n0\n" * 2


def script(columns):
    """A table, a view of it, a COPY, and the rows of both."""
    view, counted = "CREATE VIEW v AS SELECT COUNT(*) AS n FROM t; ", "SELECT COUNT(*) AS n FROM t WHERE 1 = 1; SELECT n FROM v;"
    return f"CREATE TABLE t({columns}); {view}COPY t FROM 'f.csv'; {counted}"


def refused(number, record=""):
    return f"ok\nok\nerror {number} {TOLD[number]}{record if number == 26 else ''}\n{NONE}"


def taken(count):
    return f"ok\nok\nok {count}\n" + f"rows 1\nn\n{count}\n" * 2


def bad_fields(kind):
    """Each bad field of a type, with its refusal."""
    for number, fields in BAD[kind].items():
        yield from ((number, it) for it in fields)
    yield from ((26, it) for it in BAD_ANYWHERE)


def bad_records(end):
    """A file whose records are ended so, with each of them in turn a bad one, for each refusal and type."""
    for kind, good in GOOD.items():
        fields = [(kind, *it) for it in bad_fields(kind)] + [(f"{kind} NOT NULL", 20, b"\\N")]
        fields += [(f"{kind} NOT NULL", 20, b'""')] if kind != "TEXT" else []
        for column, number, field in fields:
            for place in range(RECORDS):
                records = [good] * place + [field] + [good] * (RECORDS - place - 1)
                name = f"{column}, {field[:20]!r}, record {place + 1}, ended by {end!r}"
                yield Case(name, script(f"a {column}"), refused(number, place + 1), {"f.csv": end.join(records) + end})


def short_records():
    """Records of too few fields, and the first of two bad records."""
    for place in range(RECORDS):
        records = [b"7,tea"] * RECORDS
        records[place] = b"7"
        file = b"\n".join(records)
        yield Case(f"one field, record {place + 1}", script("a INTEGER, b TEXT"), refused(26, place + 1), {"f.csv": file})
        for later in range(place + 1, RECORDS):
            both = [*records[:later], b"9223372036854775808,tea", *records[later + 1:]]
            name = f"two bad records, {place + 1} and {later + 1}"
            yield Case(name, script("a INTEGER, b TEXT"), refused(26, place + 1), {"f.csv": b"\n".join(both)})
            both = [*records[:place], b"9223372036854775808,tea", *records[place + 1:later], b"x", *records[later + 1:]]
            yield Case(name + ", the other way", script("a INTEGER, b TEXT"), refused(19), {"f.csv": b"\n".join(both)})
    for count in (4, 5, 6):
        words = ("--max-rows", "5")
        right = taken(count) if count < 6 else refused(21)
        yield Case(f"{count} records for 5 rows", script("a INTEGER"), right, {"f.csv": b"7\n" * count}, words=words)


def endless_quotes():
    """A quote that is never closed takes in the rest of the file."""
    for kind, good in GOOD.items():
        for place in range(RECORDS):
            file = b"\n".join([good] * place + [b'"' + good] + [good] * (RECORDS - place - 1)) + b"\n"
            number = {"INTEGER": 26, "DATE": 25}.get(kind)
            right = refused(number, place + 1) if number else taken(place + 1)
            yield Case(f"{kind}, a quote at record {place + 1}", script(f"a {kind}"), right, {"f.csv": file})
    yield Case("a quote alone", script("a TEXT"), taken(1), {"f.csv": b'"'})
    yield Case("a quote before 4,096 bytes", script("a TEXT"), taken(1), {"f.csv": b'"' + b"\n" * 4096})
    yield Case("a quote before 4,097 bytes", script("a TEXT"), refused(24), {"f.csv": b'"' + b"\n" * 4097})


def sparse(size, before=b"", behind=b""):
    """Makes a file of so many zeros, which takes no room."""

    def make(path):
        with open(path, "wb") as out:
            out.write(before)
            out.truncate(size)
            out.seek(0, os.SEEK_END)
            out.write(behind)

    return make


def large(size):
    """Files of so many bytes."""
    for kind, number in (("INTEGER", 26), ("TEXT", 24), ("DATE", 25)):
        yield Case(f"{kind}, one field", script(f"a {kind}"), refused(number, 1), {"f.csv": sparse(size)}, seconds=300)
        quoted = sparse(size, b'"')
        yield Case(f"{kind}, one field in quotes", script(f"a {kind}"), refused(number, 1), {"f.csv": quoted}, seconds=300)
        behind = sparse(size, GOOD[kind] + b"\n", b"\n" + GOOD[kind])
        yield Case(f"{kind}, a second field", script(f"a {kind}"), refused(number, 2), {"f.csv": behind}, seconds=300)
    memory = "ok\nok\nerror 1 out of memory\n" + NONE
    yield Case("no memory for a file", script("a TEXT"), memory, {"f.csv": sparse(size)}, memory=size // 2, seconds=300)
    lines = repeated("", "\n" * 1000, size // 10_000, "7")
    yield Case("blank lines", script("a INTEGER"), taken(1), {"f.csv": lines}, seconds=300)
    commas = repeated("", "," * 1000, size // 10_000, "")
    yield Case("commas", script("a INTEGER"), refused(26, 1), {"f.csv": commas}, seconds=300)


def fed(content, path):
    """Makes a FIFO, into which these bytes come once it is read."""

    def write():
        try:
            with open(path, "wb") as out:
                out.write(content)
        except BrokenPipeError:
            pass

    os.mkfifo(path)
    threading.Thread(target=write, daemon=True).start()


def no_files():
    """What stands under a file's name and is none, or is not whole."""
    failed = refused(3)
    yield Case("no file", script("a INTEGER"), failed)
    yield Case("a folder", script("a INTEGER"), failed, {"f.csv": os.mkdir})
    yield Case("a link to itself", script("a INTEGER"), failed, {"f.csv": lambda path: os.symlink(path, path)})
    yield Case("a link to nothing", script("a INTEGER"), failed, {"f.csv": lambda path: os.symlink("none", path)})
    yield Case("a FIFO", script("a INTEGER"), taken(3), {"f.csv": lambda path: fed(b"1\n2\n3\n", path)})
    early = {"f.csv": lambda path: fed(b"1,x\n2,x\n3", path)}
    yield Case("a FIFO that ends early", script("a INTEGER, b TEXT"), refused(26, 3), early)
    large_feed = b"7\n" * 500_000
    yield Case("a FIFO of a megabyte", script("a INTEGER"), taken(500_000), {"f.csv": lambda path: fed(large_feed, path)})
    yield Case("an empty file", script("a INTEGER"), taken(0), {"f.csv": b""})
    yield Case("a device that is empty", script("a INTEGER"), taken(0), {"f.csv": lambda path: os.symlink("/dev/null", path)})
    endless = "ok\nok\nerror 1 out of memory\n" + NONE
    files = {"f.csv": lambda path: os.symlink("/dev/zero", path)}
    yield Case("a device without an end", script("a TEXT"), endless, files, memory=GIGABYTE // 4)
    for name in ("", ".", "..", "/", "a/b", "../script.sql", "x" * 300, "x" * 4096, "f.csv/", "é" * 200):
        text = script("a INTEGER").replace("f.csv", name)
        yield Case(f"the name {name[:20]!r} of {len(name)} characters", text, failed, {"f.csv": b"7\n"})
    yield Case("a name of 4,097 bytes", script("a INTEGER").replace("f.csv", "x" * 4097), refused(24))


class Unreadable(Case):
    """A file that nobody may read, for a program that runs as nobody where this runs as root."""

    def compared(self, words):
        if os.getuid() == 0:
            copy = f"{words[words.index('--dir') + 1]}/program"
            shutil.copy(words[0], copy)
            words = ["setpriv", "--reuid", "65534", "--regid", "65534", "--clear-groups", copy, *words[1:]]
        return super().compared(words)


def closed(path):
    with open(path, "wb") as out:
        out.write(b"7\n")
    os.chmod(path, 0)


class Shrinking(Case):
    """A file that is cut while it is read: an accepted COPY has a row for each record before the cut, wherever that was."""

    def __init__(self, name, size, cut):
        super().__init__(name, script("a INTEGER"), None, {"f.csv": repeated("", "7\n", size // 2, "")}, seconds=300)
        self.cut = cut

    def compared(self, words):
        path = f"{words[words.index('--dir') + 1]}/f.csv"
        timer = threading.Timer(self.cut, os.truncate, (path, 2))
        timer.start()
        found = super().compared(words)
        timer.join()
        return found


def random_files(count):
    """Bytes that mean something in files, in any order: no run ends otherwise than with answers."""
    of = random.Random("files")
    parts = (b",", b'"', b"\n", b"\r", b"\\", b"N", b"7", b"-", b"x", b"\xef\xbb\xbf", b"\xc3", b"\xa9", b"\0", b"2024-02-29")
    for number in range(count):
        file = b"".join(of.choices(parts, k=of.randrange(60)))
        columns = ", ".join(f"c{place} {of.choice(tuple(GOOD))}" for place in range(of.randrange(1, 3)))
        yield Case(f"random file {number}, {file!r}, {columns}", script(columns), None, {"f.csv": file})


def sorted_rows(count):
    """Rows in any order, of which more are sorted than stand in one sorted vector, in front of a LIMIT and without one."""
    of = random.Random("rows")
    rows = [(of.randrange(1000), of.choice((None, of.randrange(10**6)))) for _ in range(count)]
    file = "".join(f"{a},{told(b)}\n" for a, b in rows)
    right = sorted(rows, key=lambda row: (-row[0], row[1] is None, row[1] or 0))
    for most in (count - 1, count):
        text = "".join(f"{a},{told(b)}\n" for a, b in right[:most])
        limit = f" LIMIT {most}" if most < count else ""
        query = f"CREATE TABLE t(a INTEGER, b INTEGER); COPY t FROM 'f.csv'; SELECT a, b FROM t ORDER BY a DESC, b{limit};"
        yield Case(f"{most} of {count} rows sorted", query, f"ok\nok {count}\nrows {most}\na,b\n{text}", {"f.csv": file}, seconds=300)


def told(value):
    return "\\N" if value is None else str(value)


def cases(is_few):
    for end in (b"\n", b"\r\n", b"\r"):
        yield from bad_records(end)
    yield from short_records()
    yield from endless_quotes()
    yield from no_files()
    yield Unreadable("a file that nobody may read", script("a INTEGER"), refused(3), {"f.csv": closed})
    yield from random_files(100 if is_few else 2000)
    yield from large(GIGABYTE // 100 if is_few else GIGABYTE)
    yield from sorted_rows(10_000 if is_few else 1_100_000)
    for cut in (0.001, 0.01, 0.02, 0.05, 0.1):
        yield Shrinking(f"a file that shrinks behind {cut} s", GIGABYTE // (100 if is_few else 5), cut)
