"""Scripts cut into statements, outputs into answers, and statements that list what tables and views hold."""
import re

TOKEN = re.compile(r"'[^']*'?|--[^\n]*|;|[^;'-]+|-")
TABLE = re.compile(r"\s*CREATE TABLE (\w+)\s*\((.*)\)", re.S | re.I)
VIEW = re.compile(r"\s*CREATE VIEW (\w+)\s+AS\s+SELECT\s+(.*?)\s+FROM\b", re.S | re.I)
DROPPED = re.compile(r"\s*DROP (?:TABLE|VIEW) (\w+)", re.I)


def statements(script):
    """The pieces of a script that are answered; the last one may lack its semicolon."""
    found, piece, is_blank = [], [], True
    for token in TOKEN.findall(script):
        piece.append(token)
        if token == ";":
            found += [] if is_blank else ["".join(piece)]
            piece, is_blank = [], True
        elif token.strip(" \t\r\n") and not token.startswith("--"):
            is_blank = False
    return found if is_blank else [*found, "".join(piece)]


def is_ended(script):
    """Whether a semicolon ends the last statement."""
    return len(statements(script + "\nx")) > len(statements(script))


def words(text):
    """The words of a statement, in lower case and without those of texts and comments."""
    plain = "".join(" " if token.startswith(("'", "--")) else token for token in TOKEN.findall(text))
    return re.findall(r"\w+", plain.lower())


def answers(output):
    """The answers that an output is made of, each with its line ends; what is no whole answer comes last."""
    found, at = [], 0
    while at < len(output):
        end = end_of_answer(output, at)
        found.append(output[at:end])
        at = end
    return found


def end_of_answer(output, at):
    """Where the answer ends that begins here."""
    end = output.find("\n", at) + 1 or len(output)
    count = re.match(r"rows (\d+)\n", output[at:end])
    for _ in range(int(count[1]) + 1 if count else 0):
        end = end_of_record(output, end)
    return end


def end_of_record(output, at):
    """Where the line ends that begins here, with the texts in quotes that go on behind it."""
    end = at
    while True:
        end = output.find("\n", end) + 1 or len(output)
        if output.count('"', at, end) % 2 == 0 or end == len(output):
            return end


def parts(text):
    """What commas outside of parentheses and texts separate."""
    found, depth, start = [], 0, 0
    for at, one in enumerate(re.sub(r"'[^']*'", lambda it: "x" * len(it[0]), text)):
        depth += (one == "(") - (one == ")")
        if one == "," and depth == 0:
            found.append(text[start:at].strip())
            start = at + 1
    return found + [text[start:].strip()]


def name_of(item, place):
    """The name of an item of a query at a place, from 1."""
    named = re.search(r"\bAS (\w+)$", item, re.I) or re.match(r"(?:\w+\.)?([a-z_]\w*)$", item, re.I)
    return named[1] if named else f"c{place}"


def lists(script):
    """Behind each statement, in its turn: statements that list each table and each view that it finds there."""
    there, found = {}, []
    for piece in statements(script):
        text = "".join(" " if token.startswith("--") else token for token in TOKEN.findall(piece))
        table, view, dropped = TABLE.match(text), VIEW.match(text), DROPPED.match(text)
        if table:
            there[table[1]] = [it.split()[0] for it in parts(table[2]) if it]
        elif view:
            there[view[1]] = [name_of(it, place) for place, it in enumerate(parts(view[2]), 1)]
        elif dropped:
            there.pop(dropped[1], None)
        found.append([f" SELECT {', '.join(columns)} FROM {name};" for name, columns in there.items()])
    return found
