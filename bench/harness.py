"""What the benchmarks share: their options, the systems that are there, and where the figures go."""
import argparse
import contextlib
import os
import shutil
import subprocess
import sys
import tempfile

from peers.frames import python_with
from peers.system import Missing

HERE = os.path.dirname(os.path.realpath(__file__))
TOP = os.path.dirname(HERE)
PROVED = f"{TOP}/crates/colview/out/colview"


def options(description, scale, out):
    """The command line. `out` says where the figures of a whole run of a scale go by default."""
    it = argparse.ArgumentParser(description=description, formatter_class=argparse.RawDescriptionHelpFormatter)
    it.add_argument("--scale", **scale)
    it.add_argument("--colview", default=PROVED, help="the program; by default the proved one of ./colview build")
    it.add_argument("--systems", default="", help="some of them alone, as sqlite,duckdb,colview")
    it.add_argument("--only", default="", help="workloads whose names begin so, as a_scan,load,kept")
    it.add_argument("--rounds", type=int, default=3, help="how often each is run; the best counts")
    it.add_argument("--data", help="the folder of the files, made where they are missing")
    it.add_argument("--out", help="the folder of the figures")
    it = it.parse_args()
    it.colview = os.path.abspath(it.colview)
    if not os.access(it.colview, os.X_OK):
        sys.exit(f"no program {it.colview}: ./colview build makes it, or name another one by --colview")
    it.out = os.path.abspath(it.out or f"{TOP}/{'out/speed/part' if it.only or it.systems else out(it.scale)}")
    it.data = os.path.abspath(it.data or f"{tempfile.gettempdir()}/colview-bench/{os.path.basename(sys.argv[0])}-{it.scale}")
    it.wants = lambda name: not it.only or any(name.startswith(part) for part in it.only.split(","))
    return it


def say(*words):
    print(*words, file=sys.stderr, flush=True)


@contextlib.contextmanager
def systems(classes, schema, told):
    """The systems that are there and start, by their names. Any other is left out with a line that says why."""
    work, live, left_out = tempfile.mkdtemp(prefix="colview-bench-"), {}, []
    os.chmod(work, 0o755)
    try:
        for kind in classes:
            if told.systems and kind.name not in told.systems.split(","):
                continue
            it = kind(schema, told.data, work, told.colview) if kind.name == "colview" else kind(schema, told.data, work)
            try:
                it.start()
                live[kind.name] = it
            except (Missing, OSError, KeyError, subprocess.CalledProcessError) as fault:
                it.stop()
                left_out.append(f"{kind.name} is left out: {fault}")
                say(left_out[-1])
        yield live, left_out
    finally:
        for it in live.values():
            it.stop()
        shutil.rmtree(work, ignore_errors=True)


def finish(results, folder):
    """Prints the figures, keeps and draws them; the exit status."""
    os.makedirs(folder, exist_ok=True)
    print(results.text())
    results.write(f"{folder}/results.json")
    with open(f"{folder}/tables.md", "w", encoding="utf-8") as out:
        out.write(results.text(is_markdown=True))
    python = python_with("matplotlib")
    if python:
        subprocess.run([python, f"{HERE}/pictures", f"{folder}/results.json", folder], check=True)
    else:
        print("no pictures: apt-get install python3-matplotlib, and then bench/pictures", folder)
    return 0 if results.is_right else 1
