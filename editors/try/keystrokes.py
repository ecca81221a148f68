#!/usr/bin/env python3
"""Counts what a keystroke costs by the size of the document: keystrokes.py PROGRAM [KEYSTROKES]

In documents of 10 kB, 100 kB and 1 MB a letter is typed in the middle and taken back, so many times (20 if no number
is given), and after each the server is asked one thing. A line has how many times the processor time of the smallest
document the server needs for the others: the median for each. Only ratios hold, for one machine and moment.
"""
import json
import pathlib
import statistics
import subprocess
import sys

from frames import message_frame, read_body

SIZES = (10_000, 100_000, 1_000_000)
URI = "file:///a.typ"
SECTION = """= Section {0} <s{0}>

Some *words* of _prose_ with $x_{0} + y^2$, which go on for a while; see @s{0}, and `raw text`.
#figure(
  table(columns: 2, [a], [b]),
  caption: [Of #{{ let n = {0}; n }}],
)
- an item
- another one with #link("https://a.b")[a link]

"""


def at(line: int, character: int):
    return {"line": line, "character": character}


def document(size: int) -> tuple[str, int]:
    """A text, and the line in its middle where is typed."""
    sections, length = [], 0
    while length < size:
        sections.append(SECTION.format(len(sections)))
        length += len(sections[-1])
    return "".join(sections), len(sections) // 2 * SECTION.count("\n") + 2


class Session:
    """A server with one document open, in the middle of which is typed."""

    def __init__(self, program: str, size: int):
        self.process = subprocess.Popen([program], stdin=subprocess.PIPE, stdout=subprocess.PIPE)
        self.facts = pathlib.Path("/proc", str(self.process.pid))
        text, self.line = document(size)
        self.reference = at(self.line, text.splitlines()[self.line].index("@s") + 2)
        self.version = 0
        self.ask("initialize", capabilities={"textDocument": {"documentSymbol": {"hierarchicalDocumentSymbolSupport": True}}})
        self.send("textDocument/didOpen", textDocument={"uri": URI, "languageId": "typst", "version": 0, "text": text})
        read_body(self.process.stdout)
        self.tokens = self.ask_document("semanticTokens/full")["resultId"]

    def send(self, method: str, identifier=None, **params) -> None:
        message = {"jsonrpc": "2.0", "method": method, "params": params}
        if identifier is not None:
            message["id"] = identifier
        self.process.stdin.write(message_frame(message))
        self.process.stdin.flush()

    def ask(self, method: str, **params):
        self.send(method, 1, **params)
        return json.loads(read_body(self.process.stdout))["result"]

    def ask_document(self, method: str, **params):
        return self.ask("textDocument/" + method, textDocument={"uri": URI}, **params)

    def diagnostics(self) -> None:
        """Types a letter, or takes it back, and reads the errors and warnings."""
        self.version += 1
        place = at(self.line, 4)
        typed = {"range": {"start": place, "end": place}, "text": "x"}
        if self.version % 2 == 0:
            typed = {"range": {"start": place, "end": at(self.line, 5)}, "text": ""}
        self.send("textDocument/didChange", textDocument={"uri": URI, "version": self.version}, contentChanges=[typed])
        read_body(self.process.stdout)

    def tokens_of_50_lines(self) -> None:
        lines = {"start": at(self.line - 25, 0), "end": at(self.line + 25, 0)}
        assert self.ask_document("semanticTokens/range", range=lines)["data"]

    def tokens_by_delta(self) -> None:
        answer = self.ask_document("semanticTokens/full/delta", previousResultId=self.tokens)
        assert len(answer["edits"]) == 1
        self.tokens = answer["resultId"]

    def outline(self) -> None:
        assert self.ask_document("documentSymbol")

    def folds(self) -> None:
        assert self.ask_document("foldingRange")

    def definition(self) -> None:
        assert self.ask_document("definition", position=self.reference)

    def used(self) -> int:
        """The server's processor time in nanoseconds, when it waits for input again."""
        while (self.facts / "stat").read_text().rpartition(")")[2].split()[0] != "S":
            pass
        return int((self.facts / "schedstat").read_text().split()[0])

    def cost(self, asked) -> int:
        """The processor time of what is asked."""
        before = self.used()
        asked(self)
        return self.used() - before

    def costs(self, asked, keystrokes: int) -> float:
        """The median cost of what is asked after keystrokes."""
        found = []
        for _ in range(keystrokes):
            if asked is not Session.diagnostics:
                self.diagnostics()
            found.append(self.cost(asked))
        return statistics.median(found)

    def end(self) -> None:
        self.ask("shutdown")
        self.send("exit")
        assert self.process.wait() == 0


ASKED = (Session.diagnostics, Session.tokens_of_50_lines, Session.tokens_by_delta, Session.outline, Session.folds, Session.definition)


def main() -> None:
    keystrokes = int(sys.argv[2]) if len(sys.argv) > 2 else 20
    found = {}
    for size in SIZES:
        session = Session(sys.argv[1], size)
        for asked in ASKED:
            found[asked, size] = session.costs(asked, keystrokes)
        session.end()
    print("asked after a keystroke: " + ", ".join(f"{size // 1000} kB" for size in SIZES[1:]) + " over 10 kB")
    for asked in ASKED:
        ratios = (found[asked, size] / found[asked, SIZES[0]] for size in SIZES[1:])
        print(asked.__name__.replace("_", " ") + ": " + ", ".join(f"{ratio:.1f}" for ratio in ratios))


if __name__ == "__main__":
    main()
