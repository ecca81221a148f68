#!/usr/bin/env python3
"""Tries texts whose trees are deep: deep.py [--times] FOLDER LINKS KIB [CHAIN..]

FOLDER holds the programs, as FOLDER/NAME/out/NAME. Of each chain, a text of so many links of one
kind, typst_syn prints lines and HTML; typst_check checks it in each format and makes a page;
typst_probe gives a source of it a keystroke at the front, in the middle and at the end, takes each
back, and compares what the source holds with what is newly made; a server opens it, gets the same
keystrokes, is asked all that it answers, and closes it: all with a machine stack of KIB kibibytes.
Each has to end as it does for a chain of 600 links, and what typst_probe counts has to grow from
there on as from 600 links to 601. A line says what ended otherwise, and the last one how many runs
agreed.

Up to 10,000 links there is what prints a tree, too: typst_check and typst_syn, also after an edit at
the three places. Its indentation grows by the square of the links: of 1,000,000 it would fill all
memory, so edits of long chains are never given to typst_syn.

With --times each run is made of LINKS links and of four times as many. A line has how many times as
long each took, the shortest of three, and the last one how many took at most six times as long.
"""
import argparse
import os
import re
import resource
import subprocess
import sys
import tempfile
import time

from frames import message_frame, raw_bodies

CHAINS = {
    "call": ("#f", "()", ""),
    "field": ("#a", ".b", ""),
    "method": ("#a", ".b()", ""),
    "plus": ("#(a", "+a", ")"),
    "and": ("#(a", " and a", ")"),
    "equal": ("#(a", "==a", ")"),
    "assign": ("#{a", "=a", "}"),
    "else-if": ("#if a {}", " else if a {}", ""),
    "subscript": ("$a", "_b", "$"),
    "power": ("$a", "^b", "$"),
    "fraction": ("$a", "/b", "$"),
    "factorial": ("$a", "!", "$"),
    "math-field": ("$aa", ".bb", "$"),
}
# So many links are more than the levels that the grammar allows to nest.
SHORT = 600
MOST_PRINTED = 10_000
SECONDS = 600
# How many times as many links a run is timed with, and how many times as long it may take.
MORE, MOST_TIMES = 4, 6
FORMATS = (*(["--format", name] for name in ("short", "ndjson", "github", "sarif")), ["--page"])
NAME = {"textDocument": {"uri": "file:///a"}}


class Tried:
    """The programs of a folder, run with a stack of so many bytes."""

    def __init__(self, folder: str, stack: int):
        self.folder, self.stack = os.path.abspath(folder), stack

    def run(self, name: str, words, sent: bytes = b""):
        """The status of a program, what it printed, and how many seconds it took."""
        program = f"{self.folder}/{name}/out/{name}"
        limit = lambda: resource.setrlimit(resource.RLIMIT_STACK, (self.stack, self.stack))
        start = time.perf_counter()
        try:
            run = subprocess.run([program, *words], input=sent, capture_output=True, preexec_fn=limit, timeout=SECONDS)
        except subprocess.TimeoutExpired:
            return f"no end in {SECONDS} s", b"", SECONDS
        return run.returncode, run.stdout, time.perf_counter() - start


def text_of(chain: str, links: int) -> str:
    front, link, end = CHAINS[chain]
    return front + link * links + end


def places(chain: str, links: int):
    """The bytes at which edits are made: before the first link, between two in the middle and after the last."""
    front, link, _ = CHAINS[chain]
    return {"front": len(front), "middle": len(front) + links // 2 * len(link), "end": len(front) + links * len(link)}


def at(byte: int):
    """A position in a text of one line of ASCII."""
    return {"line": 0, "character": byte}


def notice(method: str, **params):
    return {"jsonrpc": "2.0", "method": method, "params": params}


def keystroke(version: int, byte: int, until: int, text: str):
    change = {"range": {"start": at(byte), "end": at(until)}, "text": text}
    document = {**NAME["textDocument"], "version": version}
    return notice("textDocument/didChange", textDocument=document, contentChanges=[change])


def questions(byte: int, end: int):
    """What a server is asked of a document, at a byte where it is asked about one."""
    here = {**NAME, "position": at(byte)}
    asked = {
        "semanticTokens/full": NAME,
        "semanticTokens/full/delta": {**NAME, "previousResultId": "1"},
        "semanticTokens/range": {**NAME, "range": {"start": at(0), "end": at(end)}},
        "documentSymbol": NAME,
        "foldingRange": NAME,
        "selectionRange": {**NAME, "positions": [at(byte)]},
        "definition": here,
        "references": {**here, "context": {"includeDeclaration": True}},
        "documentHighlight": here,
    }
    return [notice(f"textDocument/{method}", **params) for method, params in asked.items()]


def dialogue(chain: str, links: int) -> bytes:
    text = text_of(chain, links)
    tree = {"documentSymbol": {"hierarchicalDocumentSymbolSupport": True}}
    opened = {"uri": "file:///a", "languageId": "typst", "version": 0, "text": text}
    messages = [{"id": "begin", **notice("initialize", capabilities={"textDocument": tree})}]
    messages.append(notice("textDocument/didOpen", textDocument=opened))
    for byte in places(chain, links).values():
        messages += [keystroke(1, byte, byte, "x"), keystroke(2, byte, byte + 1, "")]
        first = len(messages)
        messages += [{"id": first + at, **it} for at, it in enumerate(questions(byte, len(text)))]
    messages += [notice("textDocument/didClose", **NAME), {"id": "end", "jsonrpc": "2.0", "method": "shutdown"}]
    return b"".join(map(message_frame, [*messages, {"jsonrpc": "2.0", "method": "exit"}]))


def kinds_of(answers: bytes):
    """What came, by what each body begins with: its identifier and whether it is a result, or its method."""
    kinds = []
    for body in raw_bodies(answers):
        identifier = re.search(rb'"id":("?\w+"?)', body[:100] + body[-100:])
        is_error = b'"error":' in body[:100] + body[-100:]
        kinds.append((identifier[1], is_error) if identifier else b"publishDiagnostics")
    return kinds


def numbers_of(printed: bytes):
    """What is printed, without its numbers, and these."""
    return re.sub(rb"\d+", b"N", printed), [int(number) for number in re.findall(rb"\d+", printed)]


def grown(tried, chain: str, links: int):
    """What typst_probe has to print of a chain, by what it prints of two short ones, and the numbers there."""
    ends = [tried.run("typst_probe", ["chain"], f"{chain} {many}".encode())[1] for many in (SHORT, SHORT + 1)]
    (printed, first), (_, second) = map(numbers_of, ends)
    return printed, [one + (other - one) * (links - SHORT) for one, other in zip(first, second)]


def runs(chain: str, links: int, path: str):
    """The runs of a chain: a name, a program, its words, its input, and how its output is compared."""
    text = text_of(chain, links).encode()
    some = lambda output: bool(output)
    yield "lines", "typst_syn", ["lines"], text, some
    yield "html", "typst_syn", ["html"], text, some
    yield "keystrokes", "typst_probe", ["chain"], f"{chain} {links}".encode(), numbers_of
    for words in FORMATS:
        yield " ".join(words), "typst_check", [*words, path], b"", some
    if links <= MOST_PRINTED:
        yield "tree", "typst_syn", ["tree"], text, some
        yield "--tree", "typst_check", ["--tree", path], b"", some
        for where, byte in places(chain, links).items():
            yield f"edit at the {where}", "typst_syn", ["edit", str(byte), str(byte), "x"], text, some
    yield "dialogue", "typst_lsp", [], dialogue(chain, links), kinds_of


def ended_runs(tried, chain: str, links: int, path: str, times: int = 1):
    """Of each run of a chain by its name: how it ended, how many bytes it printed, and its shortest seconds."""
    with open(path, "w") as file:
        file.write(text_of(chain, links))
    for name, program, words, sent, compared in runs(chain, links, path):
        made = [tried.run(program, words, sent) for _ in range(times)]
        status, output, _ = made[0]
        ended = (status, compared(output) if status in (0, 1) else None)
        yield name, ended, len(output), min(seconds for _, _, seconds in made)


def hold(tried, chain: str, links: int, path: str):
    """Compares the runs of a chain with those of a short one: how many there are, and how many agree."""
    wanted = {name: ended for name, ended, _, _ in ended_runs(tried, chain, SHORT, path)}
    wanted["keystrokes"] = (0, grown(tried, chain, links))
    agree = []
    for name, ended, size, seconds in ended_runs(tried, chain, links, path):
        agree.append(ended == wanted[name] and ended[0] in (0, 1))
        if not agree[-1]:
            print(f"{chain}, {name}: status {ended[0]}, {size} bytes, {seconds:.1f} s", flush=True)
    return len(agree), sum(agree)


def measure(tried, chain: str, links: int, path: str):
    """Times the runs of a chain and of a longer one: how many there are, and how many take not much longer."""
    took = lambda many: {name: seconds for name, _, _, seconds in ended_runs(tried, chain, many, path, 3)}
    short, long = took(links), took(links * MORE)
    ratios = {name: long[name] / seconds for name, seconds in short.items() if name in long}
    print(f"{chain}: " + ", ".join(f"{name} {ratio:.1f}" for name, ratio in ratios.items()), flush=True)
    return len(ratios), sum(ratio <= MOST_TIMES for ratio in ratios.values())


def main() -> int:
    layout = argparse.RawDescriptionHelpFormatter
    parser = argparse.ArgumentParser("deep.py", description=__doc__, formatter_class=layout)
    parser.add_argument("--times", action="store_true")
    parser.add_argument("folder", metavar="FOLDER")
    parser.add_argument("links", type=int, metavar="LINKS")
    parser.add_argument("kib", type=int, metavar="KIB")
    parser.add_argument("chains", nargs="*", metavar="CHAIN")
    words = parser.parse_args()
    tried, agreed, count = Tried(words.folder, words.kib * 1024), 0, 0
    with tempfile.TemporaryDirectory() as room:
        for chain in words.chains or CHAINS:
            path = f"{room}/chain.typ"
            made, well = (measure if words.times else hold)(tried, chain, words.links, path)
            count, agreed = count + made, agreed + well
    said = "take at most six times as long with four times the links" if words.times else "agree"
    print(f"{agreed} of {count} runs with {words.links} links and {words.kib} KiB {said}")
    return 0 if agreed == count else 1


if __name__ == "__main__":
    sys.exit(main())
