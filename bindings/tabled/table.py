"""The table of what is promised, with what the sources have of it."""

import tomllib
from dataclasses import dataclass, field

from . import sources


@dataclass
class Record:
    """A record: C's name, the fields with C's types, bytes and comments."""

    name: str
    struct: str
    bytes: int
    comment: str
    fields: list[tuple[str, str, int, str]]


@dataclass
class Function:
    """A function: what it gives, and what it takes, as pairs of a type and a name."""

    name: str
    gives: str
    takes: list[tuple[str, str]]
    comment: str


@dataclass
class Table:
    """All that the header says. `faults` says where the table and the sources differ."""

    version: int
    constants: list[dict]
    kinds: list
    tags: list
    codes: list
    records: list[Record] = field(default_factory=list)
    functions: list[Function] = field(default_factory=list)
    faults: list[str] = field(default_factory=list)


def read() -> Table:
    """The table of abi.toml, compared with the sources."""
    said = tomllib.loads((sources.ROOT / "bindings" / "abi.toml").read_text(encoding="utf-8"))
    table = Table(said["version"], [], sources.kinds(), sources.tags(), sources.codes())
    if table.version != sources.version():
        table.faults.append(f"version: {table.version} in the table, {sources.version()} in the sources")
    read_records(table, said["records"])
    read_functions(table, said["functions"])
    read_constants(table, said["constants"])
    return table


def read_records(table: Table, said: list[dict]):
    for it in said:
        found = sources.fields(sources.sources_of(it["crate"]), it["struct"])
        if found is None:
            continue
        size, places = sources.layout(found)
        promised = [(name, at) for name, at, _ in it["fields"]]
        if (size, places) != (it["bytes"], promised):
            table.faults.append(f"{it['name']}: {it['bytes']} bytes, {promised} in the table, {size} bytes, {places} in the sources")
        types = {field.name: sources.SCALARS[field.type] for field in found}
        fields = [(name, types.get(name, "uint8_t"), at, comment) for name, at, comment in it["fields"]]
        table.records.append(Record(it["name"], it["struct"], it["bytes"], it["comment"].strip(), fields))


def read_functions(table: Table, said: list[dict]):
    exported = sources.functions({it.struct: it.name for it in table.records})
    for it in said:
        if it["name"] not in exported:
            continue
        takes = [split_name(words) for words in it["takes"]]
        promised, there = (it["gives"], [type for type, _ in takes]), exported.pop(it["name"])
        if promised != there:
            table.faults.append(f"{it['name']}: {promised} in the table, {there} in the sources")
        table.functions.append(Function(it["name"], it["gives"], takes, it["comment"].strip()))
    table.faults += [f"{name}: in the sources, and not in the table" for name in exported]


def read_constants(table: Table, said: list[dict]):
    names = {it.name for it in table.functions}
    for it in said:
        if it.get("only_with", "") not in {"", *names}:
            continue
        text = sources.text_of(it["file"])
        for name, _, words, _ in it["values"]:
            if words not in text:
                table.faults.append(f"{name}: '{words}' doesn't stand in {it['file']}")
        table.constants.append(it)


def split_name(words: str) -> tuple[str, str]:
    """The type and the name of a parameter: of `const uint8_t *text` these are `const uint8_t *` and `text`."""
    type, name = words.rsplit(" ", 1)
    stars = len(name) - len(name.lstrip("*"))
    return f"{type} {'*' * stars}".strip(), name[stars:]
