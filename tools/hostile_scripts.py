"""Hostile scripts: each beginning of a script, tokens and chains at their limits, very many and very long statements, and
pieces of random characters."""
import random
import re

from hostile_cases import LIMIT, NOT_UTF8, SYNTAX, TOP, Case, repeated
from scripts_cut import answers, is_ended, statements

DATA = f"{TOP}/crates/cq_test_transcript"
BEGUN = (
    "min-given-up-on-delete",
    "null-empty-text-and-backslash-printed",
    "copy-reads-empty-text-backslash-and-null",
    "dates-extract-like-and-bad-date",
    "blanks-semicolons-and-comments-alone",
)
TABLE = "CREATE TABLE t(a INTEGER); "
TAKEN, TYPE = "error 14 name taken\n", "error 15 type mismatch\n"
WIDE, LONG = "error 17 expression too wide\n", "error 24 text too long\n"


def read(path):
    with open(path, "rb") as it:
        return it.read()


def told(name, script):
    """The stored answers to the statements of a script of the transcript."""
    block = re.search(rf"^== {name}\n(.*?)^status \d$", read(f"{DATA}/stdout").decode(), re.M | re.S)[1]
    for text in statements(script):
        _, _, block = block.partition(text.strip().rpartition("\n")[2] + "\n")
        found = answers(block)[0]
        block = block[len(found):]
        yield found


def beginnings(name, script, right, files):
    """A case for each beginning of the bytes of a script, whose statements have these answers."""
    for end in range(len(script) + 1):
        try:
            text = script[:end].decode()
            whole = len(statements(text)) - (not is_ended(text))
            output = "".join(right[:whole]) + SYNTAX * (not is_ended(text))
        except UnicodeDecodeError:
            output = NOT_UTF8
        yield Case(f"{name}, {end} bytes", script[:end], output, files)


def begun():
    for name in BEGUN:
        script = read(f"{DATA}/data/{name}.sql")
        files = {"p.csv": read(f"{DATA}/data/{name}/p.csv")} if name.startswith("copy") else {}
        yield from beginnings(name, script, list(told(name, script.decode())), files)
    script = "CREATE TABLE t(b TEXT); INSERT INTO t VALUES ('é');".encode()
    yield from beginnings("text past ASCII", script, ["ok\n", "ok 1\n"], {})


def nested(opened, closed):
    return f"{TABLE}SELECT {'(' * opened}a{')' * closed} FROM t;"


def limits():
    """Both sides of each limit of tokens."""
    header = "ok\nrows 0\nc1\n"
    yield Case("64 pairs of parentheses", nested(64, 64), header)
    yield Case("65 pairs of parentheses", nested(65, 65), "ok\n" + LIMIT)
    yield Case("64 parentheses without an end", nested(64, 0), "ok\n" + SYNTAX)
    yield Case("65 parentheses without an end", nested(65, 0), "ok\n" + LIMIT)
    both = f"{TABLE}SELECT {'(' * 64}a{')' * 64} FROM t WHERE {'(' * 64}a = 1{')' * 64};"
    yield Case("64 pairs of parentheses twice, a stack of a megabyte", both, header, stack=1 << 20)
    yield Case("a million parentheses", nested(10**6, 10**6), "ok\n" + LIMIT)
    for count, is_taken in ((63, True), (64, False), (10**6, False)):
        name = "n" * count
        yield Case(f"a table's name of {count} bytes", f"CREATE TABLE {name}(a INTEGER);", "ok\n" if is_taken else LIMIT)
        yield Case(f"a column's name of {count} bytes", f"CREATE TABLE t({name} INTEGER);", "ok\n" if is_taken else LIMIT)
        shown = f"rows 0\n{name}\n" if is_taken else LIMIT
        yield Case(f"a result's name of {count} bytes", f"{TABLE}SELECT a AS {name} FROM t;", "ok\n" + shown)
        shown = "rows 0\na\n" if is_taken else LIMIT
        yield Case(f"a source's name of {count} bytes", f"{TABLE}SELECT {name}.a FROM t {name};", "ok\n" + shown)


def chains(count):
    """Chains of so many parts behind the first one: where they stand in a statement, and what it answers."""
    empty, named = "rows 0\nc1\n", "rows 0\na\n"
    for part, (before, behind), answer in (
        (" + 0", ("SELECT a", " FROM t;"), empty),
        (" - a", ("SELECT a", " FROM t;"), empty),
        (" * 1", ("SELECT a", " FROM t;"), empty),
        (" * 2", ("SELECT a", " FROM t;"), WIDE),
        (" AND a = 1", ("SELECT a FROM t WHERE a = 1", ";"), named),
        (" OR NOT a = 1", ("DELETE FROM t WHERE a = 1", ";"), "ok 0\n"),
        (", 1", ("SELECT a FROM t WHERE a IN (1", ");"), named),
        (" = a", ("SELECT a FROM t WHERE a", ";"), SYNTAX),
        (", a", ("SELECT a", " FROM t;"), LIMIT),
        (", a", ("SELECT a FROM t GROUP BY a", ";"), LIMIT),
        (", a", ("SELECT a FROM t ORDER BY a", ";"), LIMIT),
        (", (1)", ("INSERT INTO t VALUES (1)", ";"), f"ok {count + 1}\n"),
        (", 1", ("INSERT INTO t VALUES (1", ");"), TYPE),
        (", a = 1", ("UPDATE t SET a = 1", ";"), TAKEN),
        (" JOIN t y ON x.a = y.a", ("SELECT x.a FROM t x", ";"), TAKEN),
    ):
        script = repeated(TABLE + before, part, count, behind)
        yield Case(f"{count} times{part} behind {before}", script, "ok\n" + answer, seconds=300)
    # (each name is compared with all before it)
    columns = "".join(f", c{number} TEXT" for number in range(count // 5))
    yield Case(f"{count // 5} columns", f"CREATE TABLE t(c INTEGER{columns});", LIMIT)


def many(count):
    """So many statements."""
    summed = f"rows 1\nn,s\n{count},{count}\n"
    one, asked = "INSERT INTO t VALUES (1);\n", "SELECT COUNT(*) AS n, SUM(a) AS s FROM t;"
    yield Case(f"{count} INSERTs", repeated(TABLE, one, count, asked), "ok\n" + "ok 1\n" * count + summed, seconds=300)
    view = "CREATE VIEW v AS SELECT COUNT(*) AS n, SUM(a) AS s FROM t;"
    waiting = repeated(TABLE + view, one, count, f"REFRESH v {count // 2};SELECT n, s FROM v;")
    right = "ok\nok\n" + "ok 1\n" * count + "ok\n" + summed
    yield Case(f"{count} INSERTs that wait for a view", waiting, right, seconds=300)
    unknown = "error 12 unknown column\n" * count
    yield Case(f"{count} refused statements", repeated(TABLE, "SELECT b FROM t;", count, ""), "ok\n" + unknown, seconds=300)
    yield Case(f"{count} semicolons", repeated("", ";", count, ""), "")
    yield Case(f"{count} words", repeated("", "x ", count, ";"), SYNTAX)


def long(count):
    """One statement of so many bytes."""
    texts = "CREATE TABLE t(b TEXT); "
    for name, before, part, behind, answer in (
        ("a long text", texts + "INSERT INTO t VALUES ('", "x", "');", LONG),
        ("a long text that is compared", texts + "DELETE FROM t WHERE b = '", "x", "';", LONG),
        ("long blanks", TABLE + "SELECT a", " ", "FROM t;", "rows 0\na\n"),
        ("a long comment", TABLE + "SELECT a --", "x", "\nFROM t;", "rows 0\na\n"),
        ("a long name", TABLE + "SELECT ", "x", " FROM t;", LIMIT),
        ("a long number", TABLE + "SELECT ", "7", " FROM t;", WIDE),
        ("zeros before a number", TABLE + "INSERT INTO t VALUES (", "0", "7); SELECT a FROM t;", "ok 1\nrows 1\na\n7\n"),
        ("a text without an end", TABLE + "SELECT '", "x", "", SYNTAX),
    ):
        yield Case(f"{name}, {count} bytes", repeated(before, part, count, behind), "ok\n" + answer, seconds=300)
    row, rows = f"('{'x' * 4096}'), ", count // 4102
    script = repeated(texts + "INSERT INTO t VALUES ", row, rows, "('');")
    yield Case(f"long texts of {count} bytes", script, f"ok\nok {rows + 1}\n", seconds=300)


def pieces(of, count):
    """Statements with pieces of random characters between them, and scripts of random bytes."""
    script = read(f"{DATA}/data/min-given-up-on-delete.sql").decode()
    right = list(told("min-given-up-on-delete", script))
    for number in range(count):
        said, output = [], []
        for text, answer in zip(statements(script), right):
            for _ in range(of.randrange(4)):
                said.append(noise(of) + ";")
                output.append(SYNTAX)
            said.append(text)
            output.append(answer)
        yield Case(f"random pieces {number}", "".join(said), "".join(output))
    for number in range(count):
        noisy = bytes(of.choices(range(256), k=of.randrange(300)))
        yield Case(f"random bytes {number}", noisy, None)
        plain = bytes(of.choices(range(128), k=of.randrange(300)))
        yield Case(f"random characters {number}", plain, None)


def noise(of):
    """Characters that are neither a statement nor past a limit, and end no statement."""
    while True:
        codes = [of.choice((of.randrange(128), of.randrange(1, 0xD800), 0x10FFFF)) for _ in range(of.randrange(1, 60))]
        found = "".join(map(chr, codes)).replace(";", "").replace("'", "").replace("-", "")
        if found.strip(" \t\r\n") and not found.isspace():
            return found


def cases(is_few):
    yield from begun()
    yield from limits()
    yield from chains(10_000 if is_few else 100_000)
    yield from many(10_000 if is_few else 1_000_000)
    yield from long(1_000_000 if is_few else 100_000_000)
    yield from pieces(random.Random("pieces"), 50 if is_few else 1000)
