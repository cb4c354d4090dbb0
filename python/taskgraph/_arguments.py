"""What an argument must be to be passed to C at all. Limits of the rules are the library's to judge."""
from __future__ import annotations

from collections.abc import Iterable

MOST = 2**32 - 1


def word(value: object, what: str) -> int:
    """A whole number of 32 bits."""
    if isinstance(value, bool) or not isinstance(value, int):
        raise TypeError(f"{what} must be a whole number, not {type(value).__name__}")
    if not 0 <= value <= MOST:
        raise ValueError(f"{what} must be 0 to {MOST}, not {value}")
    return value


def words(values: object, what: str) -> list[int]:
    """Whole numbers of 32 bits, each of which is `what`."""
    if isinstance(values, (str, bytes)) or not isinstance(values, Iterable):
        raise TypeError(f"{what} must be one of a list, not of {type(values).__name__}")
    return [word(value, what) for value in values]


def octets(value: object, what: str) -> bytes:
    """Bytes, copied where they may change."""
    if not isinstance(value, (bytes, bytearray, memoryview)):
        raise TypeError(f"{what} must be bytes, not {type(value).__name__}")
    return bytes(value)
