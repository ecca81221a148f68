"""Frames of the Language Server Protocol, and what its changes make of a text."""
import json
import re
from itertools import islice

LINE_END = re.compile(r"\r\n|\n|\r")


def frame(body: bytes) -> bytes:
    return b"Content-Length: %d\r\n\r\n" % len(body) + body


def message_frame(message) -> bytes:
    return frame(json.dumps(message, ensure_ascii=False).encode())


def raw_bodies(data: bytes):
    """The bodies of frames, one after the other."""
    at = 0
    while at < len(data):
        end = data.index(b"\r\n\r\n", at)
        length = int(re.search(rb"content-length: *(\d+)", data[at:end], re.I)[1])
        at = end + 4 + length
        yield data[end + 4:at]


def read_body(stream) -> bytes:
    """The next body of a stream of frames."""
    length = 0
    while (line := stream.readline()) != b"\r\n":
        if not line:
            raise EOFError("the frames end")
        name, _, value = line.partition(b":")
        if name.lower() == b"content-length":
            length = int(value)
    return stream.read(length)


def bodies(data: bytes):
    return map(json.loads, raw_bodies(data))


def units(text: str, encoding: str) -> int:
    return len(text.encode("utf-16-le")) // 2 if encoding == "utf-16" else len(text.encode())


def offset(text: str, position, encoding: str) -> int:
    """The index of a position in a text."""
    ends = LINE_END.finditer(text)
    start = 0
    if position["line"] > 0:
        end = next(islice(ends, position["line"] - 1, None), None)
        if not end:
            return len(text)
        start = end.end()
    end = next(ends, None)
    stop = end.start() if end else len(text)
    column = 0
    for at in range(start, stop):
        column += units(text[at], encoding)
        if column > position["character"]:
            return at
    return stop


def changed(text: str, change, encoding: str) -> str:
    """A text after a change of it."""
    if "range" not in change:
        return change["text"]
    places = change["range"]["start"], change["range"]["end"]
    start, end = sorted(offset(text, place, encoding) for place in places)
    return text[:start] + change["text"] + text[end:]
