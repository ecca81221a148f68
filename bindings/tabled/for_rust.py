"""The tables of the crate for Rust."""

from . import sources
from .table import Table

TYPES = {"uint8_t": "u8", "uint16_t": "u16", "uint32_t": "u32", "uint64_t": "u64", "size_t": "usize", "void": "()"}
RECORDS = {"typst_source": "Opaque"}
# What the documentation shows of kinds.
KIND = '''\
What a node of a tree is.

```
use typst_syntax::{SyntaxKind, parse};

let heading = parse("= Hi").children().next().unwrap().kind();
assert_eq!((heading, heading.name()), (SyntaxKind::Heading, "heading"));
assert!(SyntaxKind::Space.is_trivia() && SyntaxKind::Let.is_keyword());
```'''
MADE = "Made by bindings/tables: change bindings/abi.toml."


def calls(table: Table) -> str:
    """The text of the module of records and functions."""
    RECORDS.update({it.name: it.struct for it in table.records})
    parts = [f"//! What the library gives out. {MADE}\n\n#![allow(dead_code)]\n\nuse std::mem::offset_of;\n"]
    parts.append(f"/// The version of the library that this is made for.\npub const VERSION: u32 = {table.version};\n")
    for name, value, comment in table.codes:
        parts.append(f"/// {comment}\npub const {name}: u32 = {value};\n")
    for it in table.constants:
        for name, value, _, comment in it["values"]:
            parts.append(f"/// {comment}\npub const {name}: u32 = {value};\n")
    parts.append("/// A source, into which only the library looks.\n#[repr(C)]\npub struct Opaque {\n    _nothing: [u8; 0],\n}\n")
    parts += [record(it) for it in table.records]
    parts.append('unsafe extern "C" {\n' + "".join(map(function, table.functions)) + "}\n")
    parts.append("const _: () = {\n" + "".join(map(holds, table.records)) + "};\n")
    return "\n".join(parts)


def kinds(table: Table) -> str:
    """The text of the module of kinds and tags."""
    names, words = [it.name for it in table.kinds], sources.kind_words()
    tags, scopes = [it.name for it, _, _ in table.tags], sources.tag_scopes()
    parts = [f"//! Kinds and tags, in the order of their numbers. {MADE}\n"]
    parts.append(enumeration("SyntaxKind", KIND, [(it.name, it.comment) for it in table.kinds]))
    parts.append(listed("KINDS", "All kinds, each at its number.", "SyntaxKind", names))
    calls = [words_of("SyntaxKind", "name", "The kind's name in messages.", [(it, words[it]) for it in names])]
    parts.append(methods("SyntaxKind", calls + [member(*it) for it in sources.kind_sets()]))
    parts.append(enumeration("Tag", "How a node is to be shown.", [(it.name, it.comment) for it, _, _ in table.tags]))
    calls = [f"    /// All tags.\n    pub const LIST: &'static [Tag] = &[\n" + "".join(f"        Tag::{it},\n" for it in tags) + "    ];\n"]
    calls.append(words_of("Tag", "tm_scope", "The TextMate scope that editors know the tag by.", [(it, scopes[it]) for it in tags]))
    calls.append(words_of("Tag", "css_class", "The class of the tag in HTML.", [(it.name, css) for it, _, css in table.tags]))
    parts.append(methods("Tag", calls))
    return "\n".join(parts)


def methods(name: str, calls: list[str]) -> str:
    return f"impl {name} {{\n" + "\n".join(calls) + "}\n"


def words_of(type: str, name: str, comment: str, values: list[tuple[str, str]]) -> str:
    """A method that gives a word for each variant."""
    body = "".join(f'            {type}::{it} => "{word}",\n' for it, word in values)
    return f"    /// {comment}\n    pub fn {name}(self) -> &'static str {{\n        match self {{\n{body}        }}\n    }}\n"


def member(name: str, comment: str, kinds: list[str]) -> str:
    """A method that answers whether a kind is one of a set."""
    body = "\n                | ".join(f"SyntaxKind::{it}" for it in kinds)
    head = f"    /// {comment}\n    pub fn {name}(self) -> bool {{\n"
    return f"{head}        matches!(\n            self,\n            {body}\n        )\n    }}\n"


def enumeration(name: str, comment: str, values: list[tuple[str, str]]) -> str:
    body = "".join(f"    /// {said}\n    {it},\n" for it, said in values)
    derives = "#[derive(Debug, Clone, Copy, PartialEq, Eq, Hash)]\n#[repr(u8)]\n"
    said = "".join(f"/// {it}".rstrip() + "\n" for it in comment.splitlines())
    return f"{said}{derives}pub enum {name} {{\n{body}}}\n"


def listed(name: str, comment: str, type: str, values: list[str]) -> str:
    body = "".join(f"    {type}::{it},\n" for it in values)
    return f"/// {comment}\npub(crate) const {name}: [{type}; {len(values)}] = [\n{body}];\n"


def record(it) -> str:
    body = "".join(f"    pub {name}: {TYPES[type]},\n" for name, type, _, _ in it.fields)
    derives = "#[repr(C)]\n#[derive(Debug, Clone, Copy, Default, PartialEq, Eq)]\n"
    comment = "\n/// ".join(it.comment.splitlines())
    return f"/// {comment}\n{derives}pub struct {it.struct} {{\n{body}}}\n"


def function(it) -> str:
    takes = ", ".join(f"{name}: {rust_type(type)}" for type, name in it.takes)
    gives = "" if it.gives == "void" else f" -> {TYPES[it.gives]}"
    return f"    pub fn {it.name}({takes}){gives};\n"


def rust_type(type: str) -> str:
    """Rust's type of a parameter: of `const uint8_t *` it is `*const u8`."""
    base = type.replace("const", "").replace("*", "").strip()
    pointers = "*const " if "const" in type else "*mut " * type.count("*")
    return pointers + {**TYPES, **RECORDS}[base]


def holds(it) -> str:
    sizes = [f"    assert!(size_of::<{it.struct}>() == {it.bytes});\n"]
    return "".join(sizes + [f"    assert!(offset_of!({it.struct}, {name}) == {at});\n" for name, _, at, _ in it.fields])
