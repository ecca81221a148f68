"""Texts with their trees."""

from __future__ import annotations

from collections.abc import Iterator
from ctypes import byref, c_size_t, c_uint8, c_void_p
from dataclasses import dataclass
from threading import RLock

from .errors import check
from .library import library, room_in
from .tables import Mode, PositionRecord, RemarkRecord, SaidRecord, Severity, SizesRecord, StretchRecord, Unit
from .tree import WIDTH, Hint, Node, Remark, Tree

__all__ = ["Position", "Source", "highlight_html", "parse", "parse_all"]


@dataclass(frozen=True)
class Position:
    """A place in a text. Lines and columns count from 0; `utf16` counts the UTF-16 units of the whole text before it."""

    line: int
    column: int
    utf16_column: int
    utf16: int


def parse(text: str | bytes, mode: Mode = Mode.MARKUP) -> Tree:
    """The tree of a text that isn't kept. Its nodes have no spans. `parse_all` also gives the remarks on them.

    >>> [node.name for node in parse("1 + x", Mode.CODE).root.children()]
    ['Binary']
    """
    data = bytes_of(text)
    return Tree(data, filled(guessed(len(data)), lambda *room: library.typst_parse(mode, data, len(data), *room)))


def parse_all(text: str | bytes, mode: Mode = Mode.MARKUP) -> tuple[Tree, list[Remark]]:
    """The tree of a text that isn't kept, as of `parse`, and the errors and warnings on its nodes.

    >>> tree, remarks = parse_all("f(1", Mode.CODE)
    >>> [(it.start, it.end, it.message) for it in remarks]
    [(1, 2, 'unclosed delimiter')]
    """
    data, sizes = bytes_of(text), SizesRecord()
    room = len(data) // 2 + 64, 16, 1024
    while True:
        nodes, remarks, messages = bytearray(room[0] * WIDTH), (RemarkRecord * room[1])(), bytearray(room[2])
        rooms = room_in(nodes), room[0], remarks, room[1], room_in(messages), room[2]
        check(library.typst_parse_all(mode, data, len(data), *rooms, byref(sizes)))
        del rooms
        wanted = sizes.nodes, sizes.remarks, sizes.messages
        if all(many <= most for many, most in zip(wanted, room)):
            del nodes[sizes.nodes * WIDTH :]
            return Tree(data, nodes), list(gathered(remarks[: sizes.remarks], messages))
        room = wanted


def highlight_html(text: str | bytes) -> str:
    """A text as HTML, with a span for each tag.

    >>> highlight_html("*a*")
    '<code><span class="typ-strong">*a*</span></code>'
    """
    data, count = bytes_of(text), c_size_t()
    room = bytearray(8 * len(data) + 64)
    check(library.typst_highlight_html(data, len(data), room_in(room), len(room), byref(count)))
    if count.value > len(room):
        room = bytearray(count.value)
        check(library.typst_highlight_html(data, len(data), room_in(room), len(room), byref(count)))
    return room[: count.value].decode()


class Source:
    """A text with its tree, which is kept through edits.

    Calls of one source wait for each other, so it may be used by several threads. It is freed with the last
    name that it has, or by `close`, or at the end of a `with`.

    >>> source = Source("= Hi *a")
    >>> source.edit(7, 7, "*")
    range(0, 8)
    >>> source.text
    '= Hi *a*'
    """

    def __init__(self, text: str | bytes, file: int = 1) -> None:
        """Makes a source of a text of a file, which is a number from 1 to 65535."""
        if not 0 <= file < 1 << 16:
            raise OverflowError("a file is a number from 1 to 65535")
        self._at, self._lock = c_void_p(), RLock()
        data = bytes_of(text)
        check(library.typst_source_new(file, data, len(data), byref(self._at)))
        self._made_of(file, data)

    def _made_of(self, file: int, data: bytes) -> None:
        self.file = file
        self._data: bytes | None = data
        self._tree: Tree | None = None

    def copy(self) -> Source:
        """The same source again, which goes its own way from now on."""
        made = Source.__new__(Source)
        made._at, made._lock = c_void_p(), RLock()
        with self._lock:
            check(library.typst_source_clone(self._open(), byref(made._at)))
            made._made_of(self.file, self.data)
        return made

    __copy__ = copy

    def close(self) -> None:
        """Frees the source. No call can be made of it afterwards."""
        with self._lock:
            at, self._at = self._at, c_void_p()
            if at:
                library.typst_source_free(at)

    def __enter__(self) -> Source:
        return self

    def __exit__(self, *_: object) -> None:
        self.close()

    def __del__(self) -> None:
        if getattr(self, "_at", None):
            self.close()

    def __repr__(self) -> str:
        return f"Source({self.file})"

    def _open(self) -> c_void_p:
        if not self._at:
            raise ValueError("the source is closed")
        return self._at

    @property
    def data(self) -> bytes:
        """The text as UTF-8."""
        with self._lock:
            at = self._open()
            if self._data is None:
                room = bytearray(library.typst_source_text(at, room_in(bytearray()), 0))
                library.typst_source_text(at, room_in(room), len(room))
                self._data = bytes(room)
            return self._data

    @property
    def text(self) -> str:
        """The text."""
        return self.data.decode()

    def edit(self, start: int, end: int, text: str | bytes) -> range:
        """Puts a text in the place of the bytes from `start` to `end`, and reports which bytes were read again."""
        data = bytes_of(text)
        return self._changed(library.typst_source_edit, size(start), size(end), data, len(data))

    def replace(self, text: str | bytes) -> range:
        """Makes another text the source's by an edit of what differs, and reports which bytes were read again."""
        data = bytes_of(text)
        return self._changed(library.typst_source_replace, data, len(data))

    def _changed(self, call, *words) -> range:
        stretch = StretchRecord()
        with self._lock:
            check(call(self._open(), *words, byref(stretch)))
            self._data = self._tree = None
        return range(stretch.start, stretch.end)

    @property
    def tree(self) -> Tree:
        """All nodes of the present text."""
        with self._lock:
            at, data = self._open(), self.data
            if self._tree is None:
                fill = lambda *room: library.typst_source_nodes(at, *room)  # noqa: E731
                self._tree = Tree(data, filled(told(fill), fill))
            return self._tree

    @property
    def root(self) -> Node:
        """The node above all others."""
        return self.tree.root

    def __iter__(self) -> Iterator[Node]:
        return iter(self.tree)

    def nodes_in(self, start: int, end: int) -> Tree:
        """The nodes that have a byte from `start` to `end` or touch one of these ends, with all above them.

        After an edit this is much less work than all nodes are.
        """
        with self._lock:
            at, data = self._open(), self.data
            bounds = size(start), size(end)
            fill = lambda *room: library.typst_source_nodes_in(at, *bounds, *room)  # noqa: E731
            return Tree(data, filled(guessed(min(len(data), max(0, end - start))), fill), is_whole=False)

    def find(self, span: int) -> Node | None:
        """The node with a span of this file."""
        return self.tree.find(span) if span >> 48 == self.file else None

    def range_of(self, span: int) -> range | None:
        """The bytes of the node with a span. After an edit this is much less work than `find` is.

        >>> source = Source("= Hi")
        >>> source.range_of(source.tree[1].span)
        range(0, 4)
        """
        found, stretch = c_uint8(), StretchRecord()
        with self._lock:
            check(library.typst_source_range(self._open(), size(span), byref(found), byref(stretch)))
        return range(stretch.start, stretch.end) if found.value else None

    def position(self, byte: int) -> Position:
        """The line and the columns of a byte, which begins a character or ends the text.

        >>> Source("a\\né💛b").position(8)
        Position(line=1, column=2, utf16_column=3, utf16=5)
        """
        told = PositionRecord()
        with self._lock:
            check(library.typst_source_position(self._open(), size(byte), byref(told)))
        return Position(told.line, told.column, told.utf16_column, told.utf16)

    def byte(self, line: int, column: int, unit: Unit = Unit.CHARACTERS) -> int:
        """The byte at a column of a line, which counts characters, UTF-16 units or bytes.

        >>> Source("a\\né💛b").byte(1, 3, Unit.UTF16)
        8
        """
        told = c_size_t()
        with self._lock:
            check(library.typst_source_byte(self._open(), size(line), size(column), unit, byref(told)))
        return told.value

    def remarks(self) -> list[Remark]:
        """The errors and warnings, in the order of their nodes, each with its hints.

        >>> [(it.start, it.end, it.message) for it in Source("*a").remarks()]
        [(0, 1, 'unclosed delimiter')]
        """
        said = SaidRecord()
        with self._lock:
            at, none = self._open(), room_in(bytearray())
            check(library.typst_source_remarks(at, none, 0, none, 0, byref(said)))
            room, messages = (RemarkRecord * said.remarks)(), bytearray(said.messages)
            check(library.typst_source_remarks(at, room, said.remarks, room_in(messages), said.messages, byref(said)))
        return list(gathered(room, messages))


def bytes_of(text: str | bytes) -> bytes:
    return text.encode() if isinstance(text, str) else bytes(text)


def size(number: int) -> int:
    """A number that C can count to: ctypes cuts others to that."""
    if not 0 <= number < 1 << 64:
        raise IndexError("a number of bytes, lines or columns is from 0 on, and below 2^64")
    return number


def guessed(bytes: int) -> int:
    """As many records as so many bytes mostly have, or more."""
    return bytes // 2 + 64


def told(call) -> int:
    """How many records a call would fill: without room for any, it only counts them."""
    count = c_size_t()
    check(call(room_in(bytearray()), 0, byref(count)))
    return count.value


def filled(room: int, call) -> bytearray:
    """The records that a call fills: with room for so many, and again where there are more."""
    count = c_size_t()
    while True:
        buffer = bytearray(room * WIDTH)
        check(call(room_in(buffer), room, byref(count)))
        if count.value <= room:
            del buffer[count.value * WIDTH :]
            return buffer
        room = count.value


def gathered(records, messages: bytearray) -> Iterator[Remark]:
    """The remarks of records, each with the hints that stand after it."""
    texts = (bytes(messages[it.message : it.message + it.message_len]).decode() for it in records)
    row: list[tuple[RemarkRecord, str, list[Hint]]] = []
    for it, text in zip(records, texts):
        if it.severity == Severity.HINT and row:
            row[-1][2].append(Hint(it.start, it.end, text))
        else:
            row.append((it, text, []))
    for it, text, hints in row:
        yield Remark(it.node, it.start, it.end, Severity(it.severity), text, tuple(hints))
