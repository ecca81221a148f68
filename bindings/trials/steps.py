"""The steps of bindings/try."""

import re
import subprocess
import sys
from pathlib import Path

import texts
from base import BINDINGS, WARNINGS, Trial, compiled, must, python_env, rust_env

WRAPS = ["-Wl,--wrap=malloc,--wrap=realloc,--wrap=free"]


def header(trial: Trial):
    """The header as C and C++, and that it is as the table and the sources say."""
    must([BINDINGS / "tables", "--check"])
    file = trial.room / "header.c"
    file.write_text("#include <typst_syntax.h>\nint main(void) { return 0; }\n")
    kinds = [("cc", "c", it) for it in ("c99", "c11", "c17")] + [("c++", "c++", it) for it in ("c++11", "c++17", "c++20")]
    for compiler, language, standard in kinds:
        must([compiler, "-x", language, f"-std={standard}", *WARNINGS, f"-I{BINDINGS / 'c'}", "-fsyntax-only", file])
    trial.add("header, as C and C++", len(kinds) + 1, len(kinds) + 1)


def example(trial: Trial):
    """The example in C prints its trees, linked in both ways."""
    sources, flags = [BINDINGS / "c" / "example.c"], ["-fsanitize=address,undefined"]
    programs = [compiled(trial, "example-static", sources, flags), compiled(trial, "example-shared", sources, [], "shared")]
    outputs = [subprocess.run([it], capture_output=True, text=True).stdout for it in programs]
    expected = (BINDINGS / "trials" / "example.txt").read_text()
    trial.add("example", outputs.count(expected), len(outputs))


def c_sources() -> list[Path]:
    folder = BINDINGS / "trials"
    return [folder / f"{it}.c" for it in (
        "main", "common", "edits", "refusals", "names", "positions", "chains", "threads", "large", "heap")]


def c(trial: Trial):
    """All trials in C under AddressSanitizer."""
    flags = ["-fsanitize=address,undefined", "-pthread", *WRAPS]
    program, words = compiled(trial, "trials-asan", c_sources(), flags), trial.words
    asked = ["edits", words.seed, words.edits, "refusals", "codes", "names", "positions", words.seed, words.edits // 20]
    asked += ["threads", words.edits // 20, "large"]
    trial.run("C, AddressSanitizer:", [program, *asked])
    plain = compiled(trial, "trials", c_sources(), ["-pthread", *WRAPS])
    trial.run("C:", [program.with_name(plain.name), "chains", words.links])


def valgrind(trial: Trial):
    """The same with fewer edits under valgrind, which sees what isn't initialized, too."""
    program, words = compiled(trial, "trials-valgrind", c_sources(), ["-pthread", *WRAPS]), trial.words
    watch = ["valgrind", "--quiet", "--error-exitcode=9", "--leak-check=full", "--errors-for-leak-kinds=all"]
    asked = ["edits", words.seed + 1, words.edits // 100, "refusals", "codes", "names"]
    asked += ["positions", words.seed + 1, words.edits // 1000, "threads", words.edits // 1000]
    trial.run("C, valgrind:", [*watch, program, *asked])


def shared(trial: Trial):
    """Edits and codes with the shared library."""
    program, words = compiled(trial, "trials-shared", c_sources(), ["-pthread", *WRAPS], "shared"), trial.words
    trial.run("C, shared:", [program, "edits", words.seed + 2, words.edits // 4, "codes", "threads", words.edits // 20])


def python(trial: Trial):
    """The trials of the package for Python."""
    program, words = BINDINGS / "trials" / "of_python.py", trial.words
    asked = [sys.executable, program, "trials", words.seed, words.edits, words.links]
    trial.run("Python:", asked, env=python_env())


def rust(trial: Trial):
    """The trials of the crate for Rust, and the examples of its documentation."""
    words = trial.words
    env = {**rust_env(), "TRIAL_EDITS": str(words.edits), "TRIAL_LINKS": str(words.links)}
    folder = BINDINGS / "rust"
    trial.run("Rust:", ["cargo", "test", "--quiet", "--offline", "--release", "--test", "trials", "--", "--nocapture"], cwd=folder, env=env)
    done = subprocess.run(["cargo", "test", "--offline", "--doc"], cwd=folder, env=env, capture_output=True, text=True)
    found = re.search(r"test result: \w+\. (\d+) passed; (\d+) failed", done.stdout)
    right, wrong = (int(it) for it in found.groups()) if found else (0, 1)
    if wrong or done.returncode:
        print(done.stdout[-3000:] + done.stderr[-3000:], file=sys.stderr)
    trial.add("Rust: examples", right, right + wrong)


STEPS = {"header": header, "example": example, "texts": texts.compare, "c": c, "valgrind": valgrind, "shared": shared,
         "python": python, "rust": rust}
