"""Trees, tags and HTML of texts in C, Python and Rust, beside those of another program."""

import hashlib
import re
import subprocess
import sys
from collections import Counter
from concurrent.futures import ThreadPoolExecutor
from pathlib import Path

from base import BINDINGS, Trial, compiled, must, python_env, rust_env

WORDS = ("tree", "tags", "html")
# Where docs/DIFFERENCES.md says that both can differ.
RAW_TAG = re.compile(rb"```[^\s`]")
BLANK_RAW = re.compile(rb"```[^\n`]*[ \t]+(\r\n|[\n\r\v\f]|\xc2\x85|\xe2\x80[\xa8\xa9])[ \t]*```")
LINK = re.compile(rb"https?://(.*)", re.S)
DEPTH = b"maximum parsing depth exceeded"


def output(program: Path, word: str, text: bytes) -> bytes:
    done = subprocess.run([program, word], input=text, capture_output=True)
    return done.stdout if done.returncode == 0 else b"status %d\n" % done.returncode


def digest(text: bytes) -> str:
    return hashlib.sha256(text).hexdigest()


def near(one: bytes, other: bytes) -> bytes:
    """What stands around the first difference, in both."""
    one, other = (re.sub(rb" +", b" ", it) for it in (one, other))
    at = next((it for it, (left, right) in enumerate(zip(one, other)) if left != right), min(len(one), len(other)))
    return b"\n".join(it[max(0, at - 300) : at + 300] for it in (one, other))


def listed_as(text: bytes, one: bytes, other: bytes) -> str | None:
    """Which of the listed differences it can be, if one."""
    around, rest = near(one, other), LINK.search(text)
    if re.search(rb"Raw|typ-raw", around) and RAW_TAG.search(text):
        return "tags of raw texts"
    end = re.match(rb"\w+ 0\.\.(\d+)\n", other)
    # A tree of fewer bytes than the text has is the original's fault.
    if end and int(end[1]) != len(text) or re.search(rb"Raw|typ-raw", around) and BLANK_RAW.search(text):
        return "blank raw texts"
    has_both = rest and re.search(rb"[()]", rest[1]) and re.search(rb"[\[\]]", rest[1])
    if re.search(rb"Link|typ-link|automatic links", around) and has_both:
        return "brackets in links"
    return "depth" if DEPTH in around else None


def compare(trial: Trial):
    """The trees, tags and HTML of all texts, as the oracle prints them, and as C, Python and Rust do."""
    oracle, folder = trial.words.oracle, trial.words.texts
    if oracle is None or folder is None:
        print("texts: no --oracle and --texts, so nothing is compared")
        return
    must(["cargo", "build", "--quiet", "--offline", "--release", "--example", "print"], cwd=BINDINGS / "rust", env=rust_env())
    rust = BINDINGS / "out" / "cargo" / "release" / "examples" / "print"
    c = compiled(trial, "example", [BINDINGS / "c" / "example.c"], ["-fsanitize=address,undefined"])
    told = [sys.executable, BINDINGS / "trials" / "of_python.py", "texts", folder]
    lines = subprocess.run(told, capture_output=True, text=True, env=python_env(), check=True).stdout.splitlines()
    python = {name: digests for name, *digests in map(str.split, lines)}
    files = sorted(folder.glob("*.typ"))
    counts: Counter = Counter()
    with ThreadPoolExecutor(2) as pool:
        for found in pool.map(lambda it: compare_one(it, oracle, c, rust, python[it.name]), files):
            counts.update(found)
    tell(trial, counts)


def compare_one(file: Path, oracle: Path, c: Path, rust: Path, python: list[str]) -> Counter:
    """What agrees of a text, by words and languages."""
    text, counts = file.read_bytes(), Counter()
    for word, of_python in zip(WORDS, python):
        wanted, told = output(oracle, word, text), output(c, word, text)
        counts[word, "all"] += 1
        counts[word, "Rust is as C"] += told == output(rust, word, text)
        counts[word, "Python is as C"] += digest(told) == of_python
        listed = None if told == wanted else listed_as(text, told, wanted)
        counts[word, f"listed: {listed}"] += listed is not None
        counts[word, "C is as the oracle, or differs as listed"] += told == wanted or listed is not None
        if told != wanted and listed is None:
            print(f"{file.name}: {word} differs from the oracle's", file=sys.stderr)
    return counts


def tell(trial: Trial, counts: Counter):
    for word in WORDS:
        for (_, what), count in sorted((it, count) for it, count in counts.items() if it[0] == word and count):
            if what.startswith("listed: "):
                print(f"texts, {word}: {count} differ as docs/DIFFERENCES.md lists, {what.removeprefix('listed: ')}")
        for what in ("C is as the oracle, or differs as listed", "Python is as C", "Rust is as C"):
            trial.add(f"texts, {word}: {what}", counts[word, what], counts[word, "all"])
