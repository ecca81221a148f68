"""How long calls take, in proportion to each other."""

import os
import subprocess
import sys
from pathlib import Path

from base import BINDINGS, Trial, compiled, python_env

# What is divided by what, and the most that it may be.
RATIOS = [
    ("C, parse and all records, over typst_workloads parse", "parse", "workloads-parse", 1.15),
    ("C, the same over parse without records", "parse", "bare", None),
    ("C, an edit and the records of a screen, over an edit", "screen", "edit", 1.5),
    ("the same over typst_workloads edit", "screen", "workloads-edit", 1.5),
    ("Python, a source and all records, over C's", "python-source", "source", 1.3),
    ("Python, the same as a view of numpy, over C's", "python-numpy", "source", 1.3),
    ("C, parse and all records, over the Rust original's parse", "parse", "oracle-parse", None),
    ("C, an edit, over the Rust original's", "edit", "oracle-edit", None),
]


def told(words, text: bytes, env=None) -> dict[str, float]:
    """The times that a program prints as lines of a name and nanoseconds."""
    done = subprocess.run([str(it) for it in words], input=text, capture_output=True, check=True, env=env)
    return {name: float(value) for name, value in map(str.split, done.stdout.decode().splitlines())}


def repeated(program: Path, word: str, rounds: int, text: bytes, is_oracle: bool) -> float:
    """The nanoseconds of a round of a program that repeats a call: the oracle's on its output, the others after it."""
    words = [program, "bench", word, rounds] if is_oracle else [program, word, rounds]
    done = subprocess.run([str(it) for it in words], input=text, capture_output=True, check=True)
    return float((done.stdout if is_oracle else done.stderr).split()[0])


def measured(trial: Trial, program: Path, text: bytes) -> dict[str, float]:
    """The times of one turn."""
    words, rounds = trial.words, trial.words.rounds
    of_python = [sys.executable, BINDINGS / "trials" / "of_python.py", "bench", rounds]
    times = {**told([program, rounds], text), **told(of_python, text, python_env())}
    for name, other in (("workloads", words.workloads), ("oracle", words.oracle)):
        for word in ("parse", "edit") if other else ():
            times[f"{name}-{word}"] = repeated(other, word, rounds, text, name == "oracle")
    return times


def run(trial: Trial, files: list[Path]) -> int:
    """Prints the ratios of all files: the least times of three turns, one program after the other in each."""
    sources = [BINDINGS / "trials" / "bench.c"]
    program = compiled(trial, "bench", sources, [])
    is_met = True
    print(f"{os.cpu_count()} processors; nanoseconds are the least of {trial.words.rounds} rounds in three turns")
    for file in files:
        text = file.read_bytes()
        turns = [measured(trial, program, text) for _ in range(3)]
        times = {name: min(it[name] for it in turns) for name in turns[0]}
        print(f"{file.name}, {len(text)} bytes: " + ", ".join(f"{name} {value:.0f}" for name, value in times.items()))
        is_met = all([tell(times, *ratio) for ratio in RATIOS]) and is_met
    return int(not is_met)


def tell(times: dict[str, float], what: str, over: str, under: str, most: float | None) -> bool:
    if over not in times or under not in times:
        return True
    ratio = times[over] / times[under]
    print(f"  {what}: {ratio:.2f}" + (f" (at most {most})" if most else ""))
    return most is None or ratio <= most
