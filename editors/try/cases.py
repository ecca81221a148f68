"""What a person does in an editor, case by case, and whether what the editor shows afterwards is right: cases.rows"""
import json
import pathlib
import re
from collections import Counter

TABLE = pathlib.Path(__file__).with_name("cases.rows")
TITLE = re.compile(r"^={16,}\n(.*)\n={16,}\n", re.M)
PASSED, ABSENT, WRONG = "passed", "not offered by this editor", "wrong"


class Case:
    """A text with a cursor, what is done there, and what is right afterwards."""

    def __init__(self, title: str, text: str, wanted: str):
        words = title.split(": ")[0]
        self.title, self.wanted = title, wanted
        self.action, _, self.argument = words.partition(" ")
        front, _, rest = text.partition("|")
        self.text = front + rest + "\n"
        self.line = front.count("\n")
        self.column = len(front) - len(front[:front.rfind("\n") + 1])


def table() -> list[Case]:
    _, *parts = TITLE.split(TABLE.read_text())
    found = []
    for title, body in zip(parts[::2], parts[1::2]):
        text, _, wanted = body.replace("‹SP›", " ").partition("\n---\n")
        found.append(Case(title, text, wanted.rstrip("\n")))
    return found


def lay_out(log: pathlib.Path) -> None:
    """Writes each case's text, and for the editor in cases.json what to do with it."""
    tasks = []
    for number, case in enumerate(table()):
        file = log / f"{number}.typ"
        file.write_text(case.text)
        tasks.append({"file": str(file), "line": case.line, "column": case.column, "action": case.action, "argument": case.argument})
    (log / "cases.json").write_text(json.dumps(tasks))


def outcomes(editor: str, log: pathlib.Path) -> Counter:
    """How many cases ended how, by what the editor wrote to shown.json. Says which didn't pass."""
    shown = json.loads((log / "shown.json").read_text())
    counts = Counter({PASSED: 0, ABSENT: 0, WRONG: 0})
    for case, got in zip(table(), shown, strict=True):
        if got is None:
            counts[ABSENT] += 1
            print(f"{editor}, {case.title}: {ABSENT}")
        elif got.removesuffix("\n") == case.wanted:
            counts[PASSED] += 1
        else:
            counts[WRONG] += 1
            print(f"{editor}, {case.title}: wrong\n--- wanted\n{case.wanted}\n--- shown\n{got}")
    return counts
