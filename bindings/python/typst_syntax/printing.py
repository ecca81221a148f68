"""Trees and tags as lines of text."""

from __future__ import annotations

import re
from collections import defaultdict
from collections.abc import Iterable, Iterator

from .tables import TAG_NAMES
from .tree import Remark, Tree

LINE_END = re.compile("[\n\v\f\r\x85\u2028\u2029]")


def tree_lines(tree: Tree, remarks: Iterable[Remark]) -> Iterator[str]:
    """A line for each node, two spaces deeper than its parent's, and for each thing that is said of it. The message
    of an error stands in its node's line."""
    said = defaultdict(list)
    for remark in remarks:
        said[remark.node].append(remark)
    depths: list[int] = []
    for node in tree:
        above = node.parent
        depths.append(0 if above is None else depths[above.number] + 1)
        own = said[node.number]
        message = f" {one_line(own[0].message)}" if node.is_error and own else ""
        yield "  " * depths[-1] + f"{node.name} {node.start}..{node.end}{message}"
        yield from ("  " * (depths[-1] + 1) + line for line in remark_lines(own, node.is_error))


def remark_lines(remarks: list[Remark], is_first_said: bool) -> Iterator[str]:
    for at, remark in enumerate(remarks):
        if at or not is_first_said:
            yield f"{remark.severity.name.lower()}: {one_line(remark.message)}"
        yield from (f"hint: {one_line(hint.message)}" for hint in remark.hints)


def tag_lines(tree: Tree) -> Iterator[str]:
    """A line for each node that has a tag."""
    return (f"{node.start}..{node.end} {TAG_NAMES[node.tag]}" for node in tree if node.tag)


def one_line(message: str) -> str:
    return LINE_END.sub(" ", message)
