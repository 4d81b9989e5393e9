"""Outputs that cannot be written, and scripts and memory that are not there."""
import fcntl
import os
import resource
import signal
import subprocess
import tempfile

from hostile_cases import Case, ended, put, repeated, shown

FAILED, UNREAD, NO_MEMORY = (f"colview: {why}\n".encode() for why in ("output failed", "cannot read script", "out of memory"))
FILLED = "CREATE TABLE t(a INTEGER, b TEXT); INSERT INTO t VALUES (0, 'x')"
LARGE = repeated(FILLED, ", (7, 'tea')", 30_000, "; SELECT a, b FROM t;")
SMALL = "CREATE TABLE t(a INTEGER); INSERT INTO t VALUES (1), (2); SELECT a FROM t;"
RIGHT = {LARGE: b'ok\nok 30001\nrows 30001\na,b\n0,x\n' + b"7,tea\n" * 30_000, SMALL: b"ok\nok 2\nrows 2\na\n1\n2\n"}


class Output:
    """A run of a script whose output goes where it may fail. What was written has to be a beginning of the right output, or
    all of it where the status is 0; the statuses and words on standard error are those that may come."""

    def __init__(self, name, script, run, ends):
        self.name, self.script, self.run, self.ends = name, script, run, ends

    def fault(self, program):
        with tempfile.TemporaryDirectory(prefix="hostile-") as folder:
            put(f"{folder}/script.sql", self.script)
            status, output, said = self.run([program, "run", f"{folder}/script.sql"], folder)
        right = RIGHT[self.script]
        is_right = right == output if status == 0 and output is not None else right.startswith(output or b"")
        if (status, said) not in self.ends or not is_right:
            return f"{ended(status)}, {said!r}, {shown(output or b'')}"
        return None


def done(words, out, **how):
    """The status and standard error of a command whose output goes there."""
    ran = subprocess.run(words, stdin=subprocess.DEVNULL, stdout=out, stderr=subprocess.PIPE, timeout=60, check=False, **how)
    return ran.returncode, ran.stderr


def to_device(words, _):
    with open("/dev/full", "wb") as out:
        status, said = done(words, out)
    return status, None, said


def to_reading_end(words, _):
    """Standard output is a file that is open for reading alone."""
    with open("/dev/null", "rb") as out:
        status, said = done(words, out)
    return status, None, said


def to_nowhere(words, _):
    status, said = done(["/bin/sh", "-c", 'exec "$@" >&-', "sh", *words], None)
    return status, None, said


def to_nowhere_and_silent(words, _):
    """Neither standard output nor standard error is there, nor standard input."""
    status, _ = done(["/bin/sh", "-c", 'exec "$@" <&- >&- 2>&-', "sh", *words], None)
    return status, None, b""


def to_closed_pipe(is_ignored):
    """The pipe has no reader; SIGPIPE is ignored, or as it is by default."""

    def run(words, _):
        reading, writing = os.pipe()
        os.close(reading)
        try:
            status, said = done(words, writing, restore_signals=not is_ignored)
        finally:
            os.close(writing)
        return status, None, said

    return run


def to_reader(count, is_ignored):
    """A reader that takes so many bytes and goes."""

    def run(words, _):
        how = {"stdout": subprocess.PIPE, "stderr": subprocess.PIPE, "restore_signals": not is_ignored, "bufsize": 0}
        with subprocess.Popen(words, **how) as ran:
            output = b""
            while len(output) < count:
                some = ran.stdout.read(min(7, count - len(output)))
                if not some:
                    break
                output += some
            ran.stdout.close()
            said = ran.stderr.read()
        return ran.returncode, output, said

    return run


def to_full_pipe(words, _):
    """A pipe that does not wait and is not read before the end."""
    reading, writing = os.pipe()
    fcntl.fcntl(writing, fcntl.F_SETFL, os.O_NONBLOCK)
    status, said = done(words, writing)
    os.close(writing)
    with open(reading, "rb") as it:
        return status, it.read(), said


def to_limited_file(size, is_ignored):
    """A file that may have so many bytes; SIGXFSZ is ignored, or as it is by default."""

    def limit():
        resource.setrlimit(resource.RLIMIT_FSIZE, (size, size))
        resource.setrlimit(resource.RLIMIT_CORE, (0, 0))
        signal.signal(signal.SIGXFSZ, signal.SIG_IGN if is_ignored else signal.SIG_DFL)

    def run(words, folder):
        with open(f"{folder}/out", "wb") as out:
            status, said = done(words, out, preexec_fn=limit, restore_signals=False)
        with open(f"{folder}/out", "rb") as it:
            return status, it.read(), said

    return run


def little_memory():
    """What the large script is answered with, whichever of its statements find no memory."""
    no, unknown, rows = b"error 1 out of memory\n", b"error 11 unknown table or view\n", RIGHT[LARGE].partition(b"rows ")[2]
    filled = [b"ok\nok 30001\n" + it for it in (b"rows " + rows, no)]
    empty = [b"ok\n" + no + it for it in (b"rows 0\na,b\n", no)]
    return [*filled, *empty, *(no + insert + select for insert in (no, unknown) for select in (no, unknown))]


class Limited(Case):
    """A run of the large script with little memory: the program is not loaded, or tells that it has none, or refuses
    statements for want of memory."""

    def compared(self, words):
        ran = subprocess.run(words, stdin=subprocess.DEVNULL, capture_output=True, timeout=60, check=False)
        if ran.returncode in (0, 1) and ran.stderr == b"" and ran.stdout in little_memory():
            return None
        is_unloaded = ran.returncode in (126, 127) or ran.returncode < 0
        if ran.stdout == b"" and (is_unloaded or (ran.returncode == 3 and ran.stderr in (UNREAD, NO_MEMORY))):
            return None
        return f"{ended(ran.returncode)}, {ran.stderr!r}, {shown(ran.stdout)}"


def scripts():
    """Scripts that cannot be read."""

    def run_on(path):
        def run(words, folder):
            status, said = done([*words[:2], path.format(folder)], subprocess.DEVNULL)
            return status, None, said

        return run

    for path in ("{}", "{}/none.sql", "{}/script.sql/", "{}/" + "x" * 300, "{}/" + "x/" * 3000, "/proc/self/mem"):
        yield Output(f"the script {path[:20]}", SMALL, run_on(path), {(3, UNREAD)})
    yield Output("an empty script", SMALL, run_on("/dev/null"), {(0, b"")})


def cases(is_few):
    failed = {(3, FAILED)}
    for name, script in (("a small output", SMALL), ("a large output", LARGE)):
        yield Output(f"{name}, a full disk", script, to_device, failed)
        yield Output(f"{name}, no standard output", script, to_nowhere, failed)
        yield Output(f"{name}, no stream at all", script, to_nowhere_and_silent, {(3, b"")})
        yield Output(f"{name}, standard output for reading", script, to_reading_end, failed)
        for is_ignored in (True, False):
            signals = "SIGPIPE ignored" if is_ignored else "SIGPIPE as by default"
            yield Output(f"{name}, a pipe without a reader, {signals}", script, to_closed_pipe(is_ignored), failed)
            if script == LARGE:
                yield Output(f"{name}, a reader of a line, {signals}", script, to_reader(3, is_ignored), failed)
        yield Output(f"{name}, a slow reader", script, to_reader(1 << 30, False), {(0, b"")})
        yield Output(f"{name}, a pipe that is not read", script, to_full_pipe, {(0, b"")} if script == SMALL else failed)
        for size in (0, 1, 5, 17) if script == SMALL else (4096, 100_000):
            yield Output(f"{name}, a file of {size} bytes", script, to_limited_file(size, True), failed)
    yield from scripts()
    for memory in range(2_000_000, 40_000_000, 1_000_000 if is_few else 100_000):
        yield Limited(f"{memory} bytes of memory", LARGE, None, memory=memory)
