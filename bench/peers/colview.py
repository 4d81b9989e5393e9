"""colview: one process runs a whole script, so its times are taken from outside.

Between the parts of a script stands `COPY tick FROM 'tick0';` and so on, where tick0 is a named pipe in the folder of the
files. The pipe opens for writing when the program opens it for reading: that is the time stamp, and while the program
waits there its memory is read. The pipe gives no byte, so the COPY answers `ok 0`."""
import csv
import glob
import io
import os
import subprocess
import tempfile
import threading
import time

from peers.schema import KINDS
from peers.system import Missing, System, resident

# More rows than a table can have.
ALL = 10 ** 18


def answers_of(text):
    """The rows of each `rows N` answer."""
    records, found, at = list(csv.reader(io.StringIO(text))), [], 0
    while at < len(records):
        words = records[at][0].split() if len(records[at]) == 1 and records[at][0] else []
        count = int(words[1]) if words[:1] == ["rows"] else -1
        if count >= 0:
            found.append([tuple(it) for it in records[at + 2:at + 2 + count]])
        at += 2 + count if count >= 0 else 1
    return found


class Run:
    """One run of a script with a number of ticks: seconds between them, memory at each, and the output."""

    def __init__(self, program, script, folder, ticks):
        self.came, self.left, self.memory = [], [], []
        self.pipes = [f"{folder}/tick{place}" for place in range(ticks)]
        self.is_over = False
        path = f"{folder}/script.sql"
        with open(path, "w", encoding="utf-8") as out:
            out.write(script)
        for pipe in self.pipes:
            os.mkfifo(pipe)
        self.run([program, "run", path, "--dir", folder], f"{folder}/output")
        for pipe in self.pipes:
            os.unlink(pipe)

    def run(self, words, path):
        with open(path, "w+b") as out:
            begun = time.perf_counter()
            self.process = subprocess.Popen(words, stdin=subprocess.DEVNULL, stdout=out, stderr=subprocess.PIPE)
            listener = threading.Thread(target=self.listen, daemon=True)
            listener.start()
            told = self.process.stderr.read().decode(errors="replace")
            status = self.process.wait()
            self.came.append(time.perf_counter())
            self.release(listener)
            self.left.insert(0, begun)
            out.seek(0)
            self.text = out.read().decode(errors="replace")
        refused = [line for line in self.text.split("\n") if line.startswith("error ")]
        if status or len(self.memory) != len(self.pipes):
            raise RuntimeError(f"colview: status {status}, {(refused or [told])[0][:200]}")

    def listen(self):
        for pipe in self.pipes:
            end = os.open(pipe, os.O_WRONLY)
            if not self.is_over:
                self.came.append(time.perf_counter())
                self.memory.append(resident(self.process.pid))
                self.left.append(time.perf_counter())
            os.close(end)

    def release(self, listener):
        """Lets the listener go where the program ended before its last tick."""
        self.is_over = True
        while listener.is_alive():
            for pipe in self.pipes:
                os.close(os.open(pipe, os.O_RDONLY | os.O_NONBLOCK))
            listener.join(0.01)

    def seconds(self, part):
        """What the part took that ends at this tick, the last one when the program has given its memory back and ended."""
        return self.came[part] - self.left[part]


class Colview(System):
    name = "colview"

    def __init__(self, schema, data, work, program):
        super().__init__(schema, data, work)
        self.program = program
        self.folder = tempfile.mkdtemp(prefix="colview-", dir=work)
        self.loaded = None
        for file in glob.glob(f"{data}/*.csv"):
            os.symlink(file, f"{self.folder}/{os.path.basename(file)}")

    def about(self):
        said = subprocess.run([self.program, "--version"], capture_output=True, text=True, check=True).stdout.strip()
        is_proved = self.program.endswith("crates/colview/out/colview")
        return f"{said}, {'the proved program' if is_proved else self.program}"

    def run(self, *parts):
        """A run of the parts, with a tick behind each but the last one."""
        ticks = [f"COPY tick FROM 'tick{place}';\n" for place in range(len(parts) - 1)]
        script = "".join(part + tick for part, tick in zip(parts, [*ticks, ""]))
        return Run(self.program, f"CREATE TABLE tick(a INTEGER);\n{script}", self.folder, len(ticks))

    def brought(self, table, file=None, source=None):
        """Statements that make a table and load it, its rows in columns."""
        made = self.schema.created(source or table, KINDS, name=table)
        return f"{made}COPY {table} FROM '{file or table}.csv';\nMOVE {table} {ALL};\n"

    def load(self, table):
        made, copy, move = self.brought(table).splitlines(keepends=True)
        self.loaded = self.run(made, copy, move, "")
        return self.loaded.seconds(1) + self.loaded.seconds(2)

    def memory(self):
        """What the last load added, since each load has a process of its own."""
        return self.loaded.memory[2] - self.loaded.memory[0] if self.loaded else 0

    def query(self, name, rounds):
        tables = "".join(self.brought(it) for it in self.schema.tables_of(name))
        text = f"{self.schema.text(name)};\n"
        it = self.run(tables, *[text] * rounds, "")
        found = answers_of(it.text)
        if any(rows != found[0] for rows in found):
            raise RuntimeError(f"colview: {name} is answered otherwise the second time")
        return min(it.seconds(1 + place) for place in range(rounds)), found[0]

    def queries(self, names, rounds):
        """The least seconds of some rounds and the rows of each query, all in one run."""
        tables = dict.fromkeys(table for name in names for table in self.schema.tables_of(name))
        texts = [f"{self.schema.text(name)};\n" for name in names for _ in range(rounds)]
        it = self.run("".join(map(self.brought, tables)), *texts, "")
        found = answers_of(it.text)
        for place, name in enumerate(names):
            first = place * rounds
            yield name, min(it.seconds(1 + first + turn) for turn in range(rounds)), found[first]

    def alternated(self, tables, view, writes, read):
        """The seconds to make a view, those of writes with a read behind each, and what was read."""
        it = self.run(tables, view, "".join(f"{write};\n{read};\n" for write in writes), "")
        return it.seconds(1), it.seconds(2), answers_of(it.text)

    def kept(self, upkeep):
        tables = "".join(map(self.brought, upkeep.others))
        tables += self.brought(upkeep.table, f"{upkeep.table}{upkeep.size}", upkeep.source)
        view = f"CREATE VIEW {upkeep.view} AS {upkeep.query()};\n" if upkeep.is_kept else ""
        return self.alternated(tables, view, map(upkeep.statement, upkeep.writes), upkeep.read())
