"""Runs of a program whose calls fail in turn, and what it has to make of that."""
import os
import struct
import subprocess
import threading

from scripts_cut import answers, words
from told_states import is_right, states

NO_MEMORY, NO_SOURCE = "error 1 out of memory\n", "error 3 source failed\n"
UNREAD, UNSTARTED, UNWRITTEN = (f"colview: {why}\n" for why in ("cannot read script", "out of memory", "output failed"))
# numbers of errno
EINTR, EIO, ENOMEM, ENOSPC = 4, 5, 12, 28


class End:
    """How a program ended whose call of a number failed."""

    def __init__(self, number, status, output, said):
        self.number, self.output, self.said = number, output.decode(), said.decode()
        self.status = os.waitstatus_to_exitcode(status) if number else status


class Script:
    """A script in one of its forms, and what colview answers where some of its statements are refused."""

    def __init__(self, program, name, folder, pieces, path):
        self.program, self.name, self.folder, self.pieces, self.path = program, name, folder, pieces, path
        self.known, self.lock = {}, threading.Lock()
        self.write(path, pieces)

    def write(self, path, pieces):
        with open(path, "w", encoding="utf-8", newline="") as out:
            out.writelines(pieces)

    def words(self, path):
        return [self.program, "run", path, "--dir", self.folder]

    def right(self, refused):
        """What is answered where the statements at these places are refused in these words."""
        key = tuple(refused)
        with self.lock:
            if key not in self.known:
                path = f"{self.path}.rest"
                self.write(path, [it for place, it in enumerate(self.pieces) if place not in dict(refused)])
                done = subprocess.run(self.words(path), stdin=subprocess.DEVNULL, capture_output=True, timeout=120, check=False)
                self.known[key] = self.answered(refused, done.stdout.decode(), done.returncode)
            return self.known[key]

    def answered(self, refused, output, status):
        """The output and the status, where the script without these statements has this output and this status."""
        told = answers(output)
        for place, line in refused:
            told.insert(place, line)
        return "".join(told), 1 if refused and status == 0 else status

    def judged(self, call, end):
        """What became of the run: a word for what is right, and whether it is."""
        kind, how, _ = call
        whole, status = self.right(())
        if (end.output, end.status, end.said) == (whole, status, ""):
            is_none_open = kind == "open" and NO_SOURCE in whole
            return "no difference", kind == "growth" or how < 0 or how == EINTR or is_none_open
        if end.status == 3 and end.said == UNWRITTEN:
            return "the output ends early", kind == "write" and whole.startswith(end.output) and len(end.output) < len(whole)
        if end.status == 3 and end.output == "":
            return "nothing is run", kind != "write" and end.said in (UNREAD, UNSTARTED)
        told, known = list(enumerate(answers(end.output))), set(enumerate(answers(whole)))
        refused = [it for it in told if it[1] in (NO_MEMORY, NO_SOURCE) and it not in known]
        is_fit = end.said == "" and (kind != "growth" or all(line == NO_MEMORY for _, line in refused))
        return "statements are refused", bool(refused) and is_fit and (end.output, end.status) == self.right(refused)


class StatesScript(Script):
    """The same for cq_test_states, which tells beside each answer what the engine tells."""

    def words(self, path):
        said = [words(it) for it in self.pieces]
        views = dict.fromkeys(it[2] for it in said if it[:2] == ["create", "view"] and len(it) > 2)
        return [self.program, path, self.folder, *views]

    def answered(self, refused, output, status):
        return states(output), status

    def judged(self, call, end):
        if end.output == "" and end.status == 1 and end.said.startswith("cq_test_states: "):
            return "nothing is run", True
        told = states(end.output)
        refused = [(place, NO_MEMORY) for place, it in enumerate(told) if it.answer == NO_MEMORY]
        rest, status = self.right(refused)
        what = "statements are refused" if refused else "no difference"
        return what, (end.status, end.said) == (status, "") and is_right(self.pieces, told, rest)


def ends_of(script, shim, call, first, step):
    """How the program ended, for each call of the kind from a number on, in steps, and last without a failed call."""
    kind, how, is_behind = call
    path = f"{script.path}.{kind}{how}{is_behind}.{first}"
    given = {"CALL": kind, "HOW": how, "BEHIND": is_behind, "FIRST": first, "STEP": step, "TO": path}
    env = {**os.environ, "LD_PRELOAD": shim, **{f"FAILING_{name}": str(value) for name, value in given.items()}}
    subprocess.run(script.words(script.path), env=env, stdin=subprocess.DEVNULL, check=False)
    with open(path, "rb") as it:
        told = it.read()
    os.remove(path)
    ends, at = [], 0
    while at < len(told):
        number, status, output, said = struct.unpack_from("4q", told, at)
        start, middle, at = at + 32, at + 32 + output, at + 32 + output + said
        ends.append(End(number, status, told[start:middle], told[middle:at]))
    if not ends or ends[-1].number:
        raise SystemExit(f"fail-each: {script.name}: the program did not come to its end")
    return ends
