"""What is measured: a system that loads tables and answers queries.

A system that is not installed raises Missing, whose text says how to get it. Times are seconds at the client, from sending
a statement to the end of its printed answer."""
import csv
import io
import os
import subprocess
import time


class Missing(Exception):
    """It is not installed, or does not do this; the text says so."""


def rows_of(text):
    """Rows of CSV as a list of tuples of texts."""
    return [tuple(row) for row in csv.reader(io.StringIO(text))]


def resident(process):
    """The bytes of a process that stand in memory."""
    with open(f"/proc/{process}/status", encoding="utf-8") as it:
        return next(int(line.split()[1]) * 1024 for line in it if line.startswith("VmRSS"))


class System:
    """One of the systems, over the files of a folder, with a folder of its own to work in."""
    name = ""

    def __init__(self, schema, data, work):
        self.schema, self.data, self.work = schema, data, work

    def file(self, table):
        return f"{self.data}/{table}.csv"

    def start(self):
        """Makes it ready."""

    def stop(self):
        """Ends what `start` began."""

    def about(self):
        """Its name and version."""
        return self.name

    def memory(self):
        """The bytes that it has in memory, or None where that is not known."""
        return None

    def load(self, table):
        """Loads a table anew from its file; the seconds."""
        raise NotImplementedError

    def query(self, name, rounds):
        """The least seconds of some rounds, and the rows."""
        raise NotImplementedError

    def kept(self, upkeep):
        """Writes with a read behind each: the seconds for the view, those for the writes and reads, and what was read."""
        raise Missing("not done")


class Shell(System):
    """A system behind its own shell, which reads statements from a pipe and tells the end of each answer by a mark."""
    MARK = "@@end@@"
    ECHO, INCLUDE, QUIT = ".print", ".read", ".quit"

    def spawn(self, words, **how):
        self.errors_path = f"{self.work}/{self.name}.errors"
        self.errors, self.errors_seen = open(self.errors_path, "wb"), 0
        pipes = {"stdin": subprocess.PIPE, "stdout": subprocess.PIPE, "stderr": self.errors}
        self.process = subprocess.Popen(words, **pipes, **how)

    def send(self, text):
        """Sends text and reads up to the mark: the seconds, and what came before it."""
        mark, said = f"{self.MARK}\n".encode(), bytearray()
        begun = time.perf_counter()
        self.process.stdin.write(f"{text}\n{self.ECHO} {self.MARK}\n".encode())
        self.process.stdin.flush()
        while not said.endswith(mark):
            piece = os.read(self.process.stdout.fileno(), 1 << 20)
            if not piece:
                raise RuntimeError(f"{self.name} ended: {self.told()}")
            said += piece
        seconds, fault = time.perf_counter() - begun, self.told()
        if fault:
            raise RuntimeError(f"{self.name}: {fault[:300]}")
        return seconds, said[:-len(mark)].decode()

    def told(self):
        """What it wrote to its standard error since the last time."""
        with open(self.errors_path, "rb") as it:
            it.seek(self.errors_seen)
            fault = it.read()
        self.errors_seen += len(fault)
        return fault.decode(errors="replace")

    def stop(self):
        if not hasattr(self, "process"):
            return
        try:
            self.process.stdin.write(f"{self.QUIT}\n".encode())
            self.process.stdin.close()
            self.process.wait(20)
        except (OSError, subprocess.TimeoutExpired):
            self.process.kill()
            self.process.wait()
        self.process.stdout.close()
        self.errors.close()

    def memory(self):
        return resident(self.process.pid)

    def dialect(self, text):
        """A text of the common SQL in the words of this system."""
        return text

    def query(self, name, rounds):
        text = f"{self.dialect(self.schema.text(name, self.name))};"
        runs = [self.send(text) for _ in range(rounds)]
        return min(seconds for seconds, _ in runs), rows_of(runs[0][1])

    def part(self, table, source, size):
        """Makes a table of the first rows of another one."""
        raise NotImplementedError

    def written(self, upkeep, write):
        """A write as statements, those that keep the view's table up to date among them."""
        return upkeep.statement(write)

    def summed(self, upkeep):
        """The statements that make the table of sums that stands for the view."""
        with open(upkeep.summary(self.name), encoding="utf-8") as it:
            return it.read()

    def alternated(self, writes, read):
        """The seconds of these writes with a read behind each, and what was read."""
        path = f"{self.work}/{self.name}-writes.sql"
        with open(path, "w", encoding="utf-8") as out:
            out.writelines(f"{write};\n{read};\n{self.ECHO} @@\n" for write in writes)
        os.chmod(path, 0o644)
        seconds, said = self.send(f"{self.INCLUDE} {path}")
        return seconds, [rows_of(it) for it in said.split("@@\n")[:-1]]

    def kept(self, upkeep):
        self.part(upkeep.table, upkeep.source, upkeep.size)
        built = self.send(self.summed(upkeep))[0] if upkeep.is_kept else 0.0
        writes = [self.written(upkeep, write) for write in upkeep.writes]
        seconds, read = self.alternated(writes, self.dialect(upkeep.read()))
        self.send(f"DROP TABLE {upkeep.table};" + ("DROP TABLE summary;" if upkeep.is_kept else ""))
        return built, seconds, read


class Program(System):
    """A program that reads lines: load TABLE FILE, run QUERY FILE, quit. It answers each by `ok SECONDS` or `no`, and
    leaves out of its seconds that it writes the answer."""

    def words(self):
        """The program and its words."""
        raise NotImplementedError

    def start(self):
        self.process = subprocess.Popen(self.words(), stdin=subprocess.PIPE, stdout=subprocess.PIPE, text=True)

    def say(self, line):
        self.process.stdin.write(f"{line}\n")
        self.process.stdin.flush()
        said = self.process.stdout.readline().split()
        if not said:
            raise RuntimeError(f"{self.name} ended")
        if said[0] != "ok":
            raise Missing("not done")
        return float(said[1])

    def stop(self):
        if hasattr(self, "process"):
            self.process.stdin.close()
            self.process.wait()
            self.process.stdout.close()

    def memory(self):
        return resident(self.process.pid)

    def load(self, table):
        return self.say(f"load {table} {self.file(table)}")

    def query(self, name, rounds):
        out = f"{self.work}/{self.name}.out"
        seconds = min(self.say(f"run {name} {out}") for _ in range(rounds))
        with open(out, encoding="utf-8") as it:
            return seconds, rows_of(it.read())
