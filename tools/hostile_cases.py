"""Cases of hostile use: what a program is given, and what it has to answer."""
import contextlib
import os
import signal
import subprocess
import tempfile
import threading

TOP = os.path.dirname(os.path.dirname(os.path.realpath(__file__)))
NOT_UTF8, SYNTAX, LIMIT = "error 9 script not UTF-8\n", "error 10 syntax\n", "error 29 limit exceeded\n"
GIGABYTE = 1 << 30
# cases that may take long take much memory, and run one after the other
LONG_TURN = threading.Lock()


class Case:
    """A script with its files, and the output and the status that are right; None is any output of whole answers."""

    def __init__(self, name, script, right, files=None, memory=None, stack=None, words=(), seconds=60):
        self.name, self.script, self.right, self.files = name, script, right, files or {}
        self.limits, self.words, self.seconds = {"v": memory, "s": stack}, words, seconds

    def fault(self, program):
        """What is wrong with the answers of the program, or None."""
        turn = LONG_TURN if self.seconds > 60 else contextlib.nullcontext()
        with turn, tempfile.TemporaryDirectory(prefix="hostile-") as folder:
            os.chmod(folder, 0o755)
            for name, make in {"script.sql": self.script, **self.files}.items():
                put(f"{folder}/{name}", make)
            return self.compared(limited([program, "run", f"{folder}/script.sql", "--dir", folder, *self.words], self.limits))

    def compared(self, words):
        how = {"stdin": subprocess.DEVNULL, "stdout": subprocess.PIPE, "stderr": subprocess.PIPE}
        with subprocess.Popen(words, **how) as run:
            try:
                output, said = run.communicate(timeout=self.seconds)
            except subprocess.TimeoutExpired:
                run.kill()
                return f"no end in {self.seconds} s"
        status = int(b"error " in output) if self.right is None else int("error " in self.right)
        if run.returncode != status or said:
            return f"{ended(run.returncode)}, {said[:200]!r}, {output[-200:]!r}"
        if self.right is not None and output != self.right.encode():
            return f"{shown(self.right.encode())} is right, {shown(output)} is given"
        return None


def put(path, make):
    """A file of these bytes or this text, or what a function makes under the path."""
    if callable(make):
        make(path)
    else:
        with open(path, "wb") as out:
            out.write(make if isinstance(make, bytes) else make.encode())


def repeated(before, part, count, behind):
    """Makes a file of these texts, with so many equal parts between."""

    def make(path):
        with open(path, "w", encoding="utf-8", newline="") as out:
            out.write(before)
            for _ in range(count // 1000):
                out.write(part * 1000)
            out.write(part * (count % 1000) + behind)

    return make


def limited(words, limits):
    """A command line that has so many bytes of memory (v) or of stack (s) at most."""
    said = [f"ulimit -{kind} {size // 1024}; " for kind, size in limits.items() if size]
    return ["/bin/sh", "-c", f'{"".join(said)}exec "$@"', "sh", *words] if said else words


def ended(status):
    return f"ended by {signal.Signals(-status).name}" if status < 0 else f"status {status}"


def shown(text):
    return repr(text if len(text) < 400 else text[:200] + b" .. " + text[-200:])
