#!/usr/bin/env python3
"""Makes and reads frames of the Language Server Protocol.

    talk.py record SCRIPT > stdin     writes the frames of a dialogue
    talk.py show < stdout             prints the bodies of frames, one a line

A script has a message in JSON on each line. Lines that begin with # are passed over, and a line that
begins with ! is a body as it stands, which need not be JSON.
"""
import sys

from frames import frame, raw_bodies


def record(path: str) -> None:
    with open(path, "rb") as script:
        for line in script:
            line = line.rstrip(b"\n")
            if not line or line.startswith(b"#"):
                continue
            sys.stdout.buffer.write(frame(line[1:] if line.startswith(b"!") else line))


def show() -> None:
    for body in raw_bodies(sys.stdin.buffer.read()):
        sys.stdout.buffer.write(body + b"\n")


if __name__ == "__main__":
    if sys.argv[1:2] == ["record"]:
        record(sys.argv[2])
    else:
        show()
