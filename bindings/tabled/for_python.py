"""The tables of the package for Python."""

from .sources import constant
from .table import Table

CTYPES = {"uint8_t": "c_uint8", "uint16_t": "c_uint16", "uint32_t": "c_uint32", "uint64_t": "c_uint64", "size_t": "c_size_t"}
HEAD = '''\
"""Kinds, tags, codes, records and functions of the library. Made by bindings/tables: change bindings/abi.toml."""

from ctypes import Structure, c_size_t, c_uint8, c_uint16, c_uint32, c_uint64, c_void_p
from enum import IntEnum

'''


def tables(table: Table) -> str:
    """The text of the module."""
    parts = [HEAD + f"VERSION = {table.version}\n"]
    parts.append(enumeration("Code", "What a call answers.", [(name, value) for name, value, _ in table.codes]))
    for it in table.constants:
        name = {"modes": "Mode", "flags": "Flag", "severities": "Severity", "units": "Unit"}[it["name"]]
        parts.append(enumeration(name, it["comment"], [(name, value) for name, value, _, _ in it["values"]]))
    kinds = [(constant(it.name), at) for at, it in enumerate(table.kinds)]
    parts.append(enumeration("Kind", "What a node is.", kinds))
    parts.append(sequence("KIND_NAMES", "The names of the kinds, each at its number.", [it.name for it in table.kinds]))
    tags = [(constant(it.name), number) for it, number, _ in table.tags]
    parts.append(enumeration("Tag", "How a node is to be shown.", tags))
    parts.append(sequence("TAG_NAMES", "The names of the tags; that of 0 is empty.", ["", *(it.name for it, _, _ in table.tags)]))
    parts.append(sequence("TAG_CLASSES", "Their classes in HTML.", ["", *(css for _, _, css in table.tags)]))
    parts += [record(it) for it in table.records]
    lines = [f'    "{it.name}": {signature(it)},\n' for it in table.functions]
    parts.append("# What each function gives, and what it takes.\nFUNCTIONS = {\n" + "".join(lines) + "}\n")
    return "\n\n".join(part.rstrip("\n") + "\n" for part in parts)


def enumeration(name: str, comment: str, values: list[tuple[str, int]]) -> str:
    body = "".join(f"    {it} = {value}\n" for it, value in values)
    return f'class {name}(IntEnum):\n    """{comment}"""\n\n{body}'


def sequence(name: str, comment: str, values: list[str]) -> str:
    return f"# {comment}\n{name} = (\n" + "".join(f'    "{it}",\n' for it in values) + ")\n"


def record(it) -> str:
    body = "".join(f'        ("{name}", {CTYPES[type]}),\n' for name, type, _, _ in it.fields)
    comment = " ".join(it.comment.split()).split(". ")[0].rstrip(".")
    return f'class {it.struct}Record(Structure):\n    """{comment}."""\n\n    _fields_ = [\n{body}    ]\n'


def signature(it) -> str:
    takes = ", ".join("c_void_p" if "*" in type else CTYPES[type] for type, _ in it.takes)
    return f"({CTYPES.get(it.gives)}, [{takes}])"
