"""The parser layer of Typst: trees, edits, diagnostics and tags, by a proved library.

>>> from typst_syntax import Source
>>> source = Source("= Hi *a")
>>> [node.name for node in source.root.children()]
['Heading']
>>> source.remarks()[0].message
'unclosed delimiter'
>>> source.edit(7, 7, "*")
range(0, 8)
>>> source.remarks()
[]

Positions are bytes of the text as UTF-8. The library is the file of the environment variable
TYPST_SYNTAX_LIBRARY, or `libtypst_syntax.so.1` where the system looks for libraries.
"""

from .errors import BadArgument, BadRange, NotUtf8, OutOfMemory, SpanNumbers, TooLarge, TypstError
from .source import Position, Source, highlight_html, parse, parse_all
from .tables import Kind, Mode, Severity, Tag, Unit
from .tree import Hint, Node, Remark, Tree

__all__ = [
    "BadArgument",
    "BadRange",
    "Hint",
    "Kind",
    "Mode",
    "Node",
    "NotUtf8",
    "OutOfMemory",
    "Position",
    "Remark",
    "Severity",
    "Source",
    "SpanNumbers",
    "Tag",
    "TooLarge",
    "Tree",
    "TypstError",
    "Unit",
    "highlight_html",
    "parse",
    "parse_all",
]
