"""Bare C loops over arrays in memory, in one thread: what a query could take at the least."""
import os
import shutil
import subprocess

from peers.system import Missing, Program

HERE = os.path.dirname(os.path.realpath(__file__))


class Limit(Program):
    name = "limit"

    def words(self):
        if not shutil.which("gcc"):
            raise Missing("no compiler: apt-get install gcc libc6-dev")
        program = f"{self.work}/limit"
        if not os.path.exists(program):
            subprocess.run(["gcc", "-O3", "-march=native", f"{HERE}/limit.c", "-o", program], check=True)
        return [program]

    def about(self):
        return "C loops over columns as narrow as their numbers allow, gcc -O3 -march=native, one thread"
