#!/usr/bin/env python3
"""Tries the server in Neovim and Emacs: editors.py [PROGRAM] [--edits N] [--seed N] [--only WORD]

PROGRAM is the server, else `typst_lsp` of the PATH. Each editor runs without a window, and with the configuration of
this repository makes the cases of cases.rows. It also edits each document at random. What it sends and what the server
says is kept, and then compared, at each checkpoint:

- sent: the editor's buffer, with the text that its messages make by the rules of the protocol;
- held: the text that the server holds, with the latter. It is read as the name of a heading, which the editor
  makes of it for a moment;
- each answer, and the errors and warnings, with those of a server that is handed this text whole.

Editors that aren't there are installed from Debian's packages, for which it has to run as root.
"""
import argparse
import os
import pathlib
import random
import shlex
import shutil
import subprocess
import sys
import tempfile

import cases
from transcript import Comparison, status_in

HERE = pathlib.Path(__file__).resolve().parent
PACKAGES = ["neovim", "emacs-nox", "elpa-lsp-mode", "elpa-eglot"]
CASES, DOCUMENTS = "cases", ["mixed", "returns", "large"]
PIECES = ["= Hi", "\n", "\n", "\n\n", "*a*", "_b_", "💛", "ä", "#let x = 1", "#{", "}", "[", "]", "$x^2$", "`r`", "\n```\nraw\n```\n", "<l>",
          "@l", "\n- item", "\n/ t: d", "// c\n", "/* c", "*/", " ", "words of a text ", "\u2028", "\"", "https://a.b ", "\\", "%", "a", ";"]


def document(name: str) -> bytes:
    rng = random.Random(name)
    size = 1_000_000 if name == "large" else 3_000
    pieces = ["💛 ä \u2028\n"]
    while size > 0:
        pieces.append(rng.choice(PIECES))
        size -= len(pieces[-1].encode())
    text = "".join(pieces) + "\n"
    return (text.replace("\n", "\r\n") if name == "returns" else text).encode()


def neovim(name: str) -> list[str]:
    configuration, script = (HERE.parent / "neovim.lua", "cases") if name == CASES else ("NONE", "neovim")
    return ["nvim", "--headless", "-u", str(configuration), "-i", "NONE", "-n", "-c", f"luafile {HERE}/{script}.lua"]


def emacs(name: str) -> list[str]:
    return ["emacs", "--batch", "-l", f"{HERE}/{'cases' if name == CASES else 'emacs'}.el"]


EDITORS = {"neovim": neovim, "lsp-mode": emacs, "eglot": emacs}


def pace(name: str) -> int:
    """How many edits are made before each checkpoint. There are few in a large document, as answers have megabytes."""
    return 40 if name == "large" else 10


def install() -> None:
    absent = [name for name in PACKAGES if subprocess.run(["dpkg", "-s", name], capture_output=True).returncode]
    if absent:
        subprocess.run(["apt-get", "update"], check=True, stdout=subprocess.DEVNULL)
        subprocess.run(["apt-get", "install", "-y", "--no-install-recommends", *absent], check=True, stdout=subprocess.DEVNULL)


def versions() -> None:
    shown = subprocess.run(["dpkg-query", "-W", "-f", "${Package} ${Version}\n", *PACKAGES], capture_output=True, text=True)
    print(shown.stdout, end="")


def put_tap(room: pathlib.Path) -> None:
    """Gives what keeps the messages the server's name, in a folder of the PATH."""
    tap = room / "bin" / "typst_lsp"
    tap.parent.mkdir()
    tap.write_text(f"#!/bin/sh\nexec {shlex.join([sys.executable, str(HERE / 'tap.py')])}\n")
    tap.chmod(0o755)


def run(editor: str, name: str, room: pathlib.Path, given) -> pathlib.Path:
    """Runs an editor in a folder of its own, which is given: there is what was said."""
    log = room / f"{editor}-{name}"
    log.mkdir()
    if name == CASES:
        cases.lay_out(log)
    else:
        (log / "document.typ").write_bytes(document(name))
    variables = {"TRY_LOG": log, "TRY_FILE": log / "document.typ", "TRY_CLIENT": editor, "HOME": log, **given}
    env = {**os.environ, **{word: str(value) for word, value in variables.items()}, "PATH": f"{room}/bin:{os.environ['PATH']}"}
    ended = subprocess.run(EDITORS[editor](name), env=env, cwd=log, stdin=subprocess.DEVNULL, capture_output=True, text=True, timeout=3600)
    if ended.returncode:
        sys.exit(f"{editor} {name}: the editor failed\n{ended.stdout[-2000:]}{ended.stderr[-2000:]}")
    return log


def make_cases(editor: str, options, room: pathlib.Path) -> bool:
    """Has an editor make the cases, and says whether all went well."""
    log = run(editor, CASES, room, {"TRY_PROGRAM": options.program})
    counts, status = cases.outcomes(editor, log), status_in(log).strip()
    print(f"{editor} {CASES}: " + ", ".join(f"{count} {how}" for how, count in counts.items()) + f"; status {status}", flush=True)
    return counts[cases.WRONG] == 0 and status == "0"


def edit(editor: str, name: str, options, room: pathlib.Path) -> bool:
    """Has an editor edit a document, compares what was said, and says whether all agrees."""
    given = {"TRY_PROGRAM": options.program, "TRY_EDITS": options.edits, "TRY_PACE": pace(name), "TRY_SEED": options.seed + DOCUMENTS.index(name)}
    comparison = Comparison(options.program, run(editor, name, room, given))
    print(f"{editor} {name}: {options.edits} edits; {comparison}; {comparison.agreed()} of {comparison.asked()} agreed", flush=True)
    return comparison.agreed() == comparison.asked()


def main() -> int:
    parser = argparse.ArgumentParser()
    parser.add_argument("program", nargs="?", default=shutil.which("typst_lsp"))
    parser.add_argument("--edits", type=int, default=200)
    parser.add_argument("--seed", type=int, default=1)
    parser.add_argument("--only", default="")
    options = parser.parse_args()
    options.program = os.path.abspath(options.program)
    install()
    versions()
    ended = []
    with tempfile.TemporaryDirectory(prefix="editors-") as folder:
        room = pathlib.Path(folder)
        put_tap(room)
        for editor in EDITORS:
            for name in (CASES, *DOCUMENTS):
                if options.only in f"{editor} {name}":
                    ended.append(make_cases(editor, options, room) if name == CASES else edit(editor, name, options, room))
    print(f"{sum(ended)} of {len(ended)} runs agreed")
    return int(not all(ended))


if __name__ == "__main__":
    sys.exit(main())
