"""What the sources of the library say: kinds, tags, codes, records and functions."""

import re
from dataclasses import dataclass
from pathlib import Path

ROOT = Path(__file__).resolve().parents[2]
SCALARS = {"u8": "uint8_t", "u16": "uint16_t", "u32": "uint32_t", "u64": "uint64_t", "usize": "size_t"}
SIZES = {"u8": 1, "u16": 2, "u32": 4, "u64": 8, "usize": 8}


@dataclass(frozen=True)
class Member:
    """A variant of an enumeration, or a field of a record, with its comment and its type, if it has one."""

    name: str
    comment: str
    type: str = ""


def text_of(path: str) -> str:
    return (ROOT / path).read_text(encoding="utf-8")


def sources_of(crate: str) -> str:
    """All sources of a crate, one after the other."""
    return "\n".join(it.read_text(encoding="utf-8") for it in sorted((ROOT / "crates" / crate / "src").glob("*.rt")))


def members(body: str, pattern: str) -> list[Member]:
    """The lines of a body that a pattern fits, each with the comment before it."""
    found, comment = [], []
    for line in map(str.strip, body.splitlines()):
        if line.startswith("///"):
            comment.append(line[3:].strip())
        elif it := re.fullmatch(pattern, line):
            found.append(Member(it[1], " ".join(comment), it[2] if it.lastindex == 2 else ""))
            comment = []
        else:
            comment = []
    return found


def variants(text: str, name: str) -> list[Member]:
    """The variants of an enumeration, in their order."""
    return members(one(rf"pub enum {name} {{\n(.*?)\n}}", text, f"enum {name}"), r"(\w+),")


def fields(text: str, name: str) -> list[Member] | None:
    """The fields of a record that is laid out as C does, or None where there is none of this name."""
    found = re.search(rf"#\[repr\(C\)\]\n(?:#\[[^\n]*\]\n)*pub struct {name} {{\n(.*?)\n}}", text, re.S)
    return members(found[1], r"pub (\w+): (\w+),") if found else None


def one(pattern: str, text: str, what: str) -> str:
    """What stands at a pattern that a text has to have."""
    found = re.search(pattern, text, re.S)
    if not found:
        raise SystemExit(f"bindings/tables: the sources have no {what} that could be read")
    return found[1]


def kinds() -> list[Member]:
    return variants(text_of("crates/typst_kinds/src/kind.rt"), "SyntaxKind")


def kind_words() -> dict[str, str]:
    """What messages call the kinds."""
    return dict(re.findall(r'SyntaxKind::(\w+),\s+\("\w+", "([^"]+)"\)', text_of("crates/typst_kinds/src/kind.rt")))


def kind_sets() -> list[tuple[str, str, list[str]]]:
    """The calls that tell whether a kind is one of a set: name, comment and the kinds of the set."""
    text = text_of("crates/typst_kinds/src/kind.rt")
    calls = re.findall(r"((?: +///[^\n]*\n)+)(?: +#\[[^\n]*\n)* +pub fn (is_\w+)\(self\) -> bool(.*?)\n    }\n", text, re.S)
    return [(name, " ".join(comment.replace("///", " ").split()), re.findall(r"SyntaxKind::(\w+)", body)) for comment, name, body in calls]


def tag_scopes() -> dict[str, str]:
    """The TextMate scopes of the tags."""
    return dict(re.findall(r'Tag::(\w+) => "([\w.]+\.typst)"', text_of("crates/typst_highlight/src/tags.rt")))


def tags() -> list[tuple[Member, int, str]]:
    """The tags, each with its number and its class in HTML."""
    text = text_of("crates/typst_highlight/src/tags.rt")
    codes = numbers(text_of("crates/typst_flat/src/codes.rt"), r"Some\(Tag::(\w+)\) => (\d+)")
    classes = dict(re.findall(r'Tag::(\w+) => "(typ-[\w-]+)"', text))
    return [(it, codes[it.name], classes[it.name]) for it in variants(text, "Tag")]


def codes() -> list[tuple[str, int, str]]:
    """The codes that calls answer: name, number and comment."""
    text = text_of("crates/typst_c/src/refusal.rt")
    values = numbers(text, r"Refusal::(\w+) => (\d+)")
    made = ("OK", int(one(r"pub const OK: u32 = (\d+);", text, "code of a call that was made")), "The call was made.")
    return [made, *((constant(it.name), values[it.name], it.comment) for it in variants(text, "Refusal"))]


def numbers(text: str, pattern: str) -> dict[str, int]:
    return {name: int(number) for name, number in re.findall(pattern, text)}


def version() -> int:
    text = text_of("crates/typst_c/src/exports.rt")
    return int(one(r"fn typst_abi_version\(\) -> u32\s.*?{\n\s*(\d+)\n}", text, "version"))


def functions(records: dict[str, str]) -> dict[str, tuple[str, list[str]]]:
    """What C calls: by the name the type that it gives and those that it takes. `records` has C's names of records."""
    found = re.findall(r'pub extern "C" fn (\w+)\(([^)]*)\)(?: -> (\w+))?', sources_of("typst_c"))
    return {name: (SCALARS.get(gives, "void"), c_types(takes, records)) for name, takes, gives in found}


def c_types(takes: str, records: dict[str, str]) -> list[str]:
    """C's types of the parameters of a function."""
    types = []
    for parameter in filter(None, map(str.strip, takes.split(","))):
        types += c_type(parameter.split(": ", 1)[1], records)
    return types


def c_type(type: str, records: dict[str, str]) -> list[str]:
    """C's types of one parameter: none for the allocator, a pointer and a length for an array."""
    named = {**SCALARS, **records, "bool": "uint8_t", "*mut u8": "typst_source *"}
    if type == "Global":
        return []
    if type == "Handle":
        return ["typst_source *"]
    if it := re.fullmatch(r"&\[(\w+)\]", type):
        return [f"const {named[it[1]]} *", "size_t"]
    if it := re.fullmatch(r"&mut \[(\w+)\]", type):
        return [f"{named[it[1]]} *", "size_t"]
    if it := re.fullmatch(r"&mut (.+)", type):
        return [f"{named[it[1]]} *".replace("* *", "**")]
    return [named[type]]


def layout(record: list[Member]) -> tuple[int, list[tuple[str, int]]]:
    """How many bytes a record takes, and at which byte each field stands."""
    at, widest, places = 0, 1, []
    for field in record:
        size = SIZES[field.type]
        at = -(-at // size) * size
        places.append((field.name, at))
        at, widest = at + size, max(widest, size)
    return -(-at // widest) * widest, places


def constant(name: str) -> str:
    """A name in capitals: of LineComment LINE_COMMENT."""
    return re.sub(r"(?<=[a-z0-9])(?=[A-Z])", "_", name).upper()
