"""The header for C and C++."""

import textwrap

from .sources import constant
from .table import Function, Record, Table

HEAD = """\
/* The parser layer of Typst, as programs in C call it. Made by bindings/tables: change bindings/abi.toml.
 *
 * Texts are UTF-8, a pointer and a length, with no NUL at the end; positions are bytes. What a call reports
 * goes into arrays of the caller's: as many elements as fit, in order, and the count of all. No pointer may be
 * NULL, also where its length is 0, and arrays of one call don't overlap. A call that is refused answers
 * another code than TYPST_OK, and no source has changed; an array may hold a part of what was asked for.
 *
 * A source belongs to one call at a time. Different sources may be used by different threads.
 */
#ifndef TYPST_SYNTAX_H
#define TYPST_SYNTAX_H

#include <stddef.h>
#include <stdint.h>

#ifdef __cplusplus
extern "C" {
#endif
"""

SPANS = """\
/* The file and the number of a span. */
#define TYPST_SPAN_FILE(span) ((uint16_t)((uint64_t)(span) >> 48))
#define TYPST_SPAN_NUMBER(span) ((uint64_t)(span) & ((UINT64_C(1) << 48) - 1))
"""

HOLDS = """\
/* That a compiler lays the records out as the library does. */
#if defined(__cplusplus) && __cplusplus >= 201103L
#define TYPST_HOLDS(what) static_assert(what, #what)
#elif defined(__STDC_VERSION__) && __STDC_VERSION__ >= 201112L
#define TYPST_HOLDS(what) _Static_assert(what, #what)
#endif
#ifdef TYPST_HOLDS
"""

FOOT = """\
#ifdef __cplusplus
}
#endif

#endif
"""


def header(table: Table) -> str:
    """The text of the header."""
    parts = [HEAD, f"#define TYPST_ABI_VERSION {table.version}u\n"]
    codes = [(f"TYPST_{name}", value, comment) for name, value, comment in table.codes]
    parts.append(enumeration("What calls answer.", codes))
    for it in table.constants:
        values = [(f"{it['prefix']}_{name}", value, comment) for name, value, _, comment in it["values"]]
        parts.append(enumeration(it["comment"], values))
    kinds = [(f"TYPST_KIND_{constant(it.name)}", at, it.comment) for at, it in enumerate(table.kinds)]
    parts.append(enumeration("What a node is.", kinds))
    tags = [(f"TYPST_TAG_{constant(it.name)}", number, it.comment) for it, number, _ in table.tags]
    parts.append(enumeration("How a node is to be shown; 0 is for none of these.", tags))
    parts += [record(it) for it in table.records]
    parts += [SPANS, "/* A text with its tree, which is kept through edits. */\ntypedef struct typst_source typst_source;\n"]
    parts += [function(it) for it in table.functions]
    names = [(at, it.name) for at, it in enumerate(table.kinds)]
    parts.append(each("KINDS", "kind", names) + "\n" + each("TAGS", "tag", [(number, it.name) for it, number, _ in table.tags]))
    return "\n".join([*parts, HOLDS + "".join(map(holds, table.records)) + "#endif\n", FOOT])


def version_script(table: Table) -> str:
    """What a shared library gives out, for the linker."""
    names = "".join(f"        {it.name};\n" for it in table.functions)
    return f"/* Made by bindings/tables. */\nTYPST_SYNTAX_{table.version} {{\n    global:\n{names}    local:\n        *;\n}};\n"


def each(name: str, what: str, values: list[tuple[int, str]]) -> str:
    """A macro that calls another one with each number and name."""
    body = " \\\n".join(f"    EACH({number}, {it})" for number, it in values)
    return f"/* Calls a macro with the number and the name of each {what}. */\n#define TYPST_{name}(EACH) \\\n{body}\n"


def comment(text: str, indent: str = "") -> str:
    """A comment of lines that aren't too long."""
    text = " ".join(text.split()).replace("`/* .. */`", "A slash and a star, up to a star and a slash.")
    lines = textwrap.wrap(text, 108 - len(indent))
    return indent + "/* " + f"\n{indent}   ".join(lines) + " */\n"


def enumeration(what: str, values: list[tuple[str, int, str]]) -> str:
    body = "".join(comment(it[2], "    ") + f"    {it[0]} = {it[1]},\n" for it in values)
    return f"{comment(what)}enum {{\n{body.rstrip()[:-1]}\n}};\n"


def record(it: Record) -> str:
    body = "".join(comment(said, "    ") + f"    {type} {name};\n" for name, type, _, said in it.fields)
    return f"{comment(it.comment)}typedef struct {it.name} {{\n{body}}} {it.name};\n"


def function(it: Function) -> str:
    takes = [f"{type}{'' if type.endswith('*') else ' '}{name}" for type, name in it.takes]
    # Lines break only after commas.
    parts = [part.replace(" ", "~") for part in ", ".join(takes or ["void"]).split(", ")]
    lines = textwrap.wrap(f"{it.gives}~{it.name}(" + ", ".join(parts) + ");", 108, subsequent_indent="    ")
    return comment(it.comment) + "\n".join(lines).replace("~", " ") + "\n"


def holds(it: Record) -> str:
    sizes = [f"TYPST_HOLDS(sizeof({it.name}) == {it.bytes});\n"]
    return "".join(sizes + [f"TYPST_HOLDS(offsetof({it.name}, {name}) == {at});\n" for name, _, at, _ in it.fields])
