"""Nodes as views of the array of records that the library fills, and what is said of them."""

from __future__ import annotations

from bisect import bisect_left
from collections.abc import Iterator, Sequence
from ctypes import sizeof
from dataclasses import dataclass
from functools import cache
from typing import TYPE_CHECKING, overload

from .tables import KIND_NAMES, TAG_CLASSES, Flag, Kind, NodeRecord, Severity, Tag

if TYPE_CHECKING:
    import numpy

WIDTH = sizeof(NodeRecord)


@dataclass(frozen=True)
class Hint:
    """A hint on an error or a warning: the bytes that it is about, and its message."""

    start: int
    end: int
    message: str


@dataclass(frozen=True)
class Remark:
    """An error or a warning on a node: the node's number, the bytes that it is about, its message and its hints."""

    node: int
    start: int
    end: int
    severity: Severity
    message: str
    hints: tuple[Hint, ...] = ()


@cache
def record_type() -> numpy.dtype:
    """The type of a record in arrays of numpy, which takes long to make."""
    import numpy

    return numpy.dtype(NodeRecord)


class Tree(Sequence["Node"]):
    """The nodes of a tree, or those of it that meet a stretch of bytes, in preorder.

    A tree is that of the text at the moment when it was asked for: it doesn't change where its source is edited.
    `buffer` holds the records as the library wrote them, 32 bytes each.

    >>> from typst_syntax import parse
    >>> tree = parse("= Hi")
    >>> [(node.name, node.start, node.end) for node in tree]
    [('Markup', 0, 4), ('Heading', 0, 4), ('HeadingMarker', 0, 1), ('Space', 1, 2), ('Markup', 2, 4), ('Text', 2, 4)]
    """

    __slots__ = ("buffer", "data", "_numbers")

    def __init__(self, data: bytes, buffer: bytearray, is_whole: bool = True) -> None:
        self.data = data
        self.buffer = buffer
        # Where nodes are missing, the numbers of those that are there.
        self._numbers = None if is_whole else [NodeRecord.from_buffer(buffer, at).number for at in range(0, len(buffer), WIDTH)]

    def __len__(self) -> int:
        return len(self.buffer) // WIDTH

    @overload
    def __getitem__(self, index: int) -> Node: ...
    @overload
    def __getitem__(self, index: slice) -> list[Node]: ...
    def __getitem__(self, index):
        if isinstance(index, slice):
            return [Node(self, it) for it in range(*index.indices(len(self)))]
        at = index + len(self) if index < 0 else index
        if not 0 <= at < len(self):
            raise IndexError("there is no such node")
        return Node(self, at)

    def __iter__(self) -> Iterator[Node]:
        return (Node(self, it) for it in range(len(self)))

    @property
    def root(self) -> Node:
        """The node above all others."""
        return self[0]

    def find(self, span: int) -> Node | None:
        """The node with a span, which is a file times 2^48 and a number; the first without one for 0."""
        at = bisect_left(range(len(self)), span, key=lambda it: NodeRecord.from_buffer(self.buffer, it * WIDTH).span)
        return self[at] if at < len(self) and self[at].span == span else None

    def numpy(self) -> numpy.ndarray:
        """The records as an array of numpy over the same memory, with a name for each field: `tree.numpy()["start"]`."""
        import numpy

        return numpy.frombuffer(self.buffer, dtype=record_type())

    def index_of(self, number: int) -> int:
        """The index of the first node here whose number is at least the given one; how many there are for none."""
        return min(number, len(self)) if self._numbers is None else bisect_left(self._numbers, number)


class Node:
    """A node of a tree.

    `start` and `end` are bytes. `number` is its place among all nodes of the tree, and `nodes` counts it and all below it.
    """

    __slots__ = ("_record", "_tree", "index")

    def __init__(self, tree: Tree, index: int) -> None:
        self._tree = tree
        self._record = NodeRecord.from_buffer(tree.buffer, index * WIDTH)
        self.index = index

    def __repr__(self) -> str:
        return f"<{self.name} {self.start}..{self.end}>"

    def __eq__(self, other: object) -> bool:
        return isinstance(other, Node) and self._tree is other._tree and self.index == other.index

    def __hash__(self) -> int:
        return hash((id(self._tree), self.index))

    def __iter__(self) -> Iterator[Node]:
        return self.children()

    @property
    def kind(self) -> Kind:
        """What it is."""
        return Kind(self._record.kind)

    @property
    def name(self) -> str:
        """The name of its kind, as `HeadingMarker`."""
        return KIND_NAMES[self._record.kind]

    @property
    def tag(self) -> Tag | None:
        """How it is to be shown, if in some way."""
        return Tag(self._record.tag) if self._record.tag else None

    @property
    def css_class(self) -> str:
        """The class of its tag in HTML; empty where it has no tag."""
        return TAG_CLASSES[self._record.tag]

    @property
    def span(self) -> int:
        """The file times 2^48 and its number in the file, by which it is found again; 0 where it has none."""
        return self._record.span

    @property
    def start(self) -> int:
        """Its first byte."""
        return self._record.start

    @property
    def end(self) -> int:
        """The byte after it."""
        return self._record.end

    @property
    def range(self) -> range:
        """Its bytes."""
        return range(self.start, self.end)

    @property
    def number(self) -> int:
        """Its place among all nodes of the tree, from 0 on."""
        return self._record.number

    @property
    def nodes(self) -> int:
        """How many nodes there are of it and below it, itself counted."""
        return self._record.nodes

    @property
    def is_inner(self) -> bool:
        """Whether it can have children."""
        return bool(self._record.flags & Flag.IS_INNER)

    @property
    def is_error(self) -> bool:
        """Whether it is text that is no syntax."""
        return bool(self._record.flags & Flag.IS_ERROR)

    @property
    def has_remarks(self) -> bool:
        """Whether something is said of it itself."""
        return bool(self._record.flags & Flag.HAS_REMARKS)

    @property
    def text(self) -> str:
        """Its text, with that of all nodes below it."""
        return self._tree.data[self.start : self.end].decode()

    @property
    def parent(self) -> Node | None:
        """The node that it is a child of; none of the root."""
        return Node(self._tree, self._tree.index_of(self._record.parent)) if self.number else None

    @property
    def depth(self) -> int:
        """How many nodes stand above it."""
        return sum(1 for _ in self.ancestors())

    def ancestors(self) -> Iterator[Node]:
        """The nodes above it, the nearest first."""
        above = self.parent
        while above is not None:
            yield above
            above = above.parent

    def children(self) -> Iterator[Node]:
        """Its children, as far as they are in this tree."""
        index, behind = self.index + 1, self.number + self.nodes
        while index < len(self._tree):
            child = Node(self._tree, index)
            if child.number >= behind:
                return
            yield child
            index = self._tree.index_of(child.number + child.nodes)

    def descendants(self) -> Iterator[Node]:
        """All nodes below it, each before its children."""
        behind = self._tree.index_of(self.number + self.nodes)
        return (Node(self._tree, it) for it in range(self.index + 1, behind))

    def leaves(self) -> Iterator[Node]:
        """The nodes without children at it or below it."""
        if self.nodes == 1:
            yield self
        yield from (node for node in self.descendants() if node.nodes == 1)

    @property
    def next_sibling(self) -> Node | None:
        """The next child of its parent."""
        above, index = self.parent, self._tree.index_of(self.number + self.nodes)
        if above is None or index == len(self._tree):
            return None
        node = Node(self._tree, index)
        return node if node.number < above.number + above.nodes else None
