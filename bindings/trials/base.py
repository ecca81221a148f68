"""What the steps of bindings/try share."""

import os
import re
import subprocess
import sys
from pathlib import Path

BINDINGS = Path(__file__).resolve().parents[1]
OUT = BINDINGS / "out"
WARNINGS = ["-Wall", "-Wextra", "-pedantic", "-Werror"]
# The tests of cargo print dots before.
AGREE = re.compile(r"^\.*(.*): (\d+) of (\d+) agree$", re.M)


class Trial:
    """What is tried, where, and what came of it."""

    def __init__(self, words, room: Path):
        self.words, self.room = words, room
        self.told: list[tuple[str, int, int]] = []

    def add(self, name: str, right: int, count: int):
        self.told.append((name, right, count))
        print(f"{name}: {right} of {count} agree", flush=True)

    def run(self, name: str, words, **how):
        """Runs a program that says how many results agreed, and counts it as a result, too."""
        done = subprocess.run([str(it) for it in words], capture_output=True, text=True, **how)
        for trial, right, count in AGREE.findall(done.stdout):
            self.add(f"{name} {trial}", int(right), int(count))
        is_right = done.returncode == 0
        if not is_right:
            print(done.stdout[-2000:] + done.stderr[-4000:], file=sys.stderr)
        self.add(f"{name.rstrip(':')}, its end", int(is_right), 1)

    def tell(self) -> int:
        right, count = (sum(it[at] for it in self.told) for at in (1, 2))
        print(f"{right} of {count} results agreed")
        return int(count == 0 or right != count)


def must(words, **how):
    """Runs a command that has to end with status 0."""
    done = subprocess.run([str(it) for it in words], **how)
    if done.returncode:
        sys.exit(f"bindings/try: {words[0]} ended with status {done.returncode}")


def compiled(trial: Trial, name: str, sources, flags, library="static") -> Path:
    """A program in C, linked with the static or the shared library."""
    program = trial.room / name
    link = {"static": [OUT / "libtypst_syntax.a"], "shared": [f"-L{OUT}", "-ltypst_syntax", f"-Wl,-rpath,{OUT}"]}[library]
    must(["cc", "-std=c11", "-O2", "-g", *WARNINGS, *flags, f"-I{BINDINGS / 'c'}", "-o", program, *sources, *link])
    return program


def python_env() -> dict[str, str]:
    return {**os.environ, "TYPST_SYNTAX_LIBRARY": str(OUT / "libtypst_syntax.so.1")}


def rust_env() -> dict[str, str]:
    return {**os.environ, "TYPST_SYNTAX_LIB": str(OUT)}
