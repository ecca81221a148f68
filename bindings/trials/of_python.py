"""Tries the package for Python; `bindings/try` runs it, with the library in TYPST_SYNTAX_LIBRARY.

    of_python.py texts FOLDER                prints for each text of a folder its name, and digests of its tree, tags and HTML
    of_python.py trials SEED EDITS LINKS     prints how many results of each trial agreed
    of_python.py bench ROUNDS < FILE         prints the nanoseconds of a source and its records as bytes, and as numpy's
"""

import doctest
import hashlib
import importlib
import importlib.util
import pkgutil
import random
import sys
import threading
import time
from pathlib import Path

sys.path.insert(0, str(Path(__file__).resolve().parents[1] / "python"))
sys.dont_write_bytecode = True
import typst_syntax  # noqa: E402
from typst_syntax import Mode, Source, Unit, highlight_html, parse, parse_all  # noqa: E402
from typst_syntax.printing import tag_lines, tree_lines  # noqa: E402

PIECES = ["a", " ", "\n", "\n\n", "*", "_", "= ", "- ", "/ ", "#", "#let x = 1\n", "#f(1, y: 2)", "[", "]", "{", "}", "(", ")",
          "$", "$x^2$", "/*", "*/", "// c\n", "`", "```", '"', "\\", "@t", "<t>", "é", "💛", "\r\n", "\u2028", "1.5em"]


def digest(lines) -> str:
    return hashlib.sha256("".join(f"{line}\n" for line in lines).encode()).hexdigest()


def texts(folder: str) -> None:
    for path in sorted(Path(folder).glob("*.typ")):
        source = Source(path.read_bytes())
        print(path.name, *map(digest, (tree_lines(source.tree, source.remarks()), tag_lines(source.tree), [highlight_html(source.data)])))


class Tally:
    """How many results were right, of how many."""

    def __init__(self, name: str) -> None:
        self.name, self.right, self.all = name, 0, 0

    def count(self, is_right: bool, what: object = "") -> None:
        self.all += 1
        self.right += bool(is_right)
        if not is_right and self.all - self.right <= 10:
            print(f"python {self.name}: not right, number {self.all}: {what}", file=sys.stderr)

    def tell(self) -> bool:
        print(f"python {self.name}: {self.right} of {self.all} agree", flush=True)
        return self.all > 0 and self.right == self.all


def without_spans(tree) -> bytes:
    """The records of a tree without their spans, which are the first eight bytes of each."""
    buffer = bytearray(tree.buffer)
    for at in range(8):
        buffer[at::32] = bytes(len(tree))
    return bytes(buffer)


def agrees(source: Source, text: str) -> bool:
    """Whether a source reports of a text what one reports that is newly made of it."""
    fresh = Source(text)
    tree, remarks = parse_all(text)
    same = without_spans(source.tree) == without_spans(fresh.tree) == bytes(tree.buffer)
    return same and source.remarks() == fresh.remarks() == remarks and source.text == text


def edits(tally: Tally, seed: int, many: int) -> None:
    draw, text = random.Random(seed), ""
    source = Source(text)
    for _ in range(many):
        start = draw.randrange(len(text) + 1)
        end = draw.randrange(start, min(len(text), start + (len(text) if len(text) > 700 else 9)) + 1)
        piece = draw.choice(PIECES)
        bytes_at = [len(text[:it].encode()) for it in (start, end)]
        text = text[:start] + piece + text[end:]
        if draw.randrange(4):
            changed = source.edit(*bytes_at, piece)
        else:
            changed = source.replace(text)
        tally.count(changed.stop <= len(text.encode()) and agrees(source, text), repr(text)[:200])


def steps(tally: Tally) -> None:
    """The steps of nodes, compared with the children of nodes."""
    source = Source("= A *b* _c_\n#let x = (1, [d])\n- e\n  - f $x^2$\n" * 3)
    tree = source.tree
    whole = [node for node in tree]
    for node in whole:
        children = list(node.children())
        tally.count(all(child.parent == node for child in children), node)
        tally.count([child.next_sibling for child in children] == children[1:] + [None] * bool(children), node)
        tally.count(len(list(node.descendants())) == node.nodes - 1, node)
        tally.count(tree.find(node.span) == node and source.find(node.span) == node, node)
        tally.count(source.range_of(node.span) == node.range, node)
    part = source.nodes_in(14, 20)
    met = [it.number for it in whole if it.start <= 20 and 14 <= it.end]
    tally.count([it.number for it in part] == met)
    tally.count(all(it.parent is None or it in list(it.parent.children()) for it in part))


def positions(tally: Tally) -> None:
    """Each place of a text, by what stands before it."""
    text = "a\r\né💛b\n\u2028\vc\rd\x85"
    source, lines = Source(text), text.splitlines(keepends=True)
    for at in range(len(text) + 1):
        before, data = text[:at], text[:at].encode()
        told = source.position(len(data))
        tally.count(told.utf16 == len(before.encode("utf-16-le")) // 2, at)
        start = sum(map(len, lines[: told.line]))
        tally.count(start <= at <= start + len("".join(lines[told.line :][:1])) and told.column == at - start, at)
        tally.count(source.byte(told.line, told.column) == source.byte(told.line, told.utf16_column, Unit.UTF16) == len(data), at)


def errors(tally: Tally) -> None:
    """Each error comes where it should, and nothing changes."""
    source, large = Source("aé *b*"), bytes((1 << 32) - 1)
    asked = {
        typst_syntax.BadRange: [lambda: source.position(2), lambda: source.byte(1, 0), lambda: source.edit(2, 3, ""), lambda: source.edit(3, 1, ""), lambda: source.edit(0, 99, "")],
        typst_syntax.NotUtf8: [lambda: Source(b"\xff"), lambda: source.edit(0, 0, b"\xff"), lambda: parse(b"a\xc3"), lambda: parse_all(b"\xff")],
        typst_syntax.BadArgument: [lambda: Source("", file=0), lambda: parse("", 3), lambda: parse_all("", 3)],
        typst_syntax.TooLarge: [lambda: Source(large), lambda: source.replace(large), lambda: source.edit(0, 0, large)],
        ValueError: [lambda: closed().text, lambda: closed().edit(0, 0, "")],
        IndexError: [lambda: source.edit(-1, 0, ""), lambda: source.edit(1 << 64, 1 << 64, ""), lambda: source.nodes_in(-1, 0), lambda: source.tree[99]],
    }
    before = bytes(source.tree.buffer)
    for error, calls in asked.items():
        for call in calls:
            try:
                call()
                tally.count(False, error)
            except error:
                tally.count(True)
    tally.count(bytes(source.copy().tree.buffer) == before)


def closed() -> Source:
    with Source("a") as source:
        pass
    return source


def chains(tally: Tally, links: int) -> None:
    for head, link, tail in (("#{1", "+1", "}"), ("$1", "!", "$")):
        source = Source(head + link * links + tail)
        tree = source.tree
        tally.count(len(tree) > links and tree.root.nodes == len(tree))
        source.edit(len(head), len(head), " ")
        tally.count(source.tree.root.end == len(head) + len(link) * links + len(tail) + 1)


def threads(tally: Tally, seed: int, many: int) -> None:
    tallies = [Tally("threads"), Tally("threads")]
    works = [threading.Thread(target=edits, args=(it, seed + at, many)) for at, it in enumerate(tallies)]
    for work in works:
        work.start()
    for work, it in zip(works, tallies):
        work.join()
        tally.right, tally.all = tally.right + it.right, tally.all + it.all


def examples(tally: Tally) -> None:
    """The examples of the documentation."""
    names = [it.name for it in pkgutil.iter_modules(typst_syntax.__path__) if it.name != "__main__"]
    for module in [typst_syntax, *(importlib.import_module(f"typst_syntax.{it}") for it in names)]:
        failed, tried = doctest.testmod(module)
        tally.right, tally.all = tally.right + tried - failed, tally.all + tried


def views(tally: Tally) -> None:
    """The records as an array of numpy: the same, over the same memory."""
    tree = Source("= A *b* _c_\n#let x = (1, [d])\n").tree
    view = tree.numpy()
    for name in view.dtype.names:
        tally.count(view[name].tolist() == [getattr(node._record, name) for node in tree], name)
    view["tag"][0] = 9
    tally.count(tree.root.tag == 9)


def has_numpy() -> bool:
    return importlib.util.find_spec("numpy") is not None


def trials(seed: int, many: int, links: int) -> int:
    asked = [("examples", examples, ()), ("edits", edits, (seed, many)), ("steps", steps, ()), ("positions", positions, ()), ("errors", errors, ()),
             ("chains", chains, (links,)), ("threads", threads, (seed, many // 20))]
    asked += [("numpy", views, ())] * has_numpy()
    told = []
    for name, work, words in asked:
        tally = Tally(name)
        work(tally, *words)
        told.append(tally.tell())
    return int(not all(told))


def bench(rounds: int) -> None:
    """The least times of so many rounds."""
    data = sys.stdin.buffer.read()
    calls = {"source": lambda tree: tree.buffer}
    if has_numpy():
        calls["numpy"] = lambda tree: tree.numpy()
    for name, view in calls.items():
        best = min(timed(data, view) for _ in range(rounds))
        print(f"python-{name} {best}")


def timed(data: bytes, view) -> int:
    start = time.perf_counter_ns()
    with Source(data) as source:
        view(source.tree)
    return time.perf_counter_ns() - start


def main(words: list[str]) -> int:
    match words:
        case ["texts", folder]:
            texts(folder)
        case ["trials", seed, many, links]:
            return trials(int(seed), int(many), int(links))
        case ["bench", rounds]:
            bench(int(rounds))
        case _:
            sys.exit(__doc__)
    return 0


if __name__ == "__main__":
    sys.exit(main(sys.argv[1:]))
