"""pandas, by a program that has each query written by hand; it leaves out of its time that it writes the answer."""
import os
import subprocess

from peers.system import Missing, Program

HERE = os.path.dirname(os.path.realpath(__file__))


def python_with(module):
    """A python3 on the PATH that has the module, or None."""
    for folder in [*os.environ["PATH"].split(os.pathsep), "/usr/bin"]:
        python = f"{folder}/python3"
        if os.path.exists(python) and subprocess.run([python, "-c", f"import {module}"], capture_output=True).returncode == 0:
            return python
    return None


class Frames(Program):
    name = "pandas"

    def words(self):
        python = python_with("pandas")
        if not python:
            raise Missing("not installed: apt-get install python3-pandas")
        return [python, f"{HERE}/frames_program.py"]

    def about(self):
        words = [self.words()[0], "-c", "import pandas; print(pandas.__version__)"]
        return "pandas " + subprocess.run(words, capture_output=True, text=True, check=True).stdout.strip()
