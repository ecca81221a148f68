"""The shared library, with what its functions give and take."""

import os
from ctypes import CDLL, Array, c_char

from .tables import FUNCTIONS, VERSION

__all__ = ["library", "room_in"]


def load() -> CDLL:
    """Loads the library and declares its functions to ctypes."""
    name = os.environ.get("TYPST_SYNTAX_LIBRARY", "libtypst_syntax.so.1")
    loaded = CDLL(name)
    if loaded.typst_abi_version() != VERSION:
        raise ImportError(f"{name} has version {loaded.typst_abi_version()}, and this package is for {VERSION}")
    for function, (gives, takes) in FUNCTIONS.items():
        try:
            call = getattr(loaded, function)
        except AttributeError:
            raise ImportError(f"{name} is older than this package: it has no {function}") from None
        call.restype, call.argtypes = gives, takes
    return loaded


def room_in(buffer: bytearray) -> Array:
    """A buffer as an array that a call writes to. The buffer keeps its size as long as the array is there."""
    return (c_char * len(buffer)).from_buffer(buffer)


library = load()
