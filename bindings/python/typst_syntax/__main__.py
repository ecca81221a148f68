"""Prints the tree of a document, its tags, the document as HTML, or what is wrong with it.

    python -m typst_syntax [--tree | --tags | --html | --remarks] FILE

FILE is `-` for standard input. Without words it prints the tree. It ends with status 1 where --remarks finds an
error, and with status 2 where the document can't be read.
"""

import sys
from pathlib import Path

from . import Severity, Source, TypstError, highlight_html
from .printing import remark_lines, tag_lines, tree_lines


def lines_of(source: Source, word: str, name: str) -> tuple[list[str], int]:
    """What is printed of a source, and the status."""
    if word == "--tags":
        return list(tag_lines(source.tree)), 0
    if word == "--html":
        return [highlight_html(source.data)], 0
    remarks = source.remarks()
    if word == "--tree":
        return list(tree_lines(source.tree, remarks)), 0
    places = [source.position(it.start) for it in remarks]
    lines = [
        f"{name}:{at.line + 1}:{at.column + 1}: {line}"
        for it, at in zip(remarks, places)
        for line in remark_lines([it], False)
    ]
    return lines, int(any(it.severity == Severity.ERROR for it in remarks))


def main(words: list[str]) -> int:
    word = words.pop(0) if len(words) == 2 else "--tree"
    if len(words) != 1 or word not in ("--tree", "--tags", "--html", "--remarks"):
        print(__doc__, file=sys.stderr)
        return 2
    name = words[0]
    try:
        data = sys.stdin.buffer.read() if name == "-" else Path(name).read_bytes()
        lines, status = lines_of(Source(data), word, name)
    except (OSError, TypstError) as error:
        print(f"{name}: {error}", file=sys.stderr)
        return 2
    sys.stdout.buffer.write("".join(f"{line}\n" for line in lines).encode())
    return status


if __name__ == "__main__":
    sys.exit(main(sys.argv[1:]))
