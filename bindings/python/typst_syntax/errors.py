"""Why a call is refused. Nothing has changed then."""

from .tables import Code


class TypstError(Exception):
    """A call of the library was refused."""


class OutOfMemory(TypstError, MemoryError):
    """A request for memory was refused."""


class NotUtf8(TypstError, ValueError):
    """A text isn't UTF-8."""


class BadRange(TypstError, IndexError):
    """A range isn't one of the text, or an end of it lies within a character."""


class BadArgument(TypstError, ValueError):
    """An argument is none of those that there are."""


class SpanNumbers(TypstError):
    """There are fewer span numbers than nodes."""


class TooLarge(TypstError, OverflowError):
    """The text has 2^32 - 1 bytes or more, or the tree as many nodes."""


ERRORS = {
    Code.NO_MEMORY: OutOfMemory,
    Code.NOT_UTF8: NotUtf8,
    Code.BAD_RANGE: BadRange,
    Code.BAD_ARGUMENT: BadArgument,
    Code.SPAN_NUMBERS: SpanNumbers,
    Code.TOO_LARGE: TooLarge,
}


def check(code: int) -> None:
    """Raises the error of a code, if it is one."""
    if code:
        error = ERRORS.get(code, TypstError)
        raise error((error.__doc__ or "").strip().rstrip("."))
