"""The seven functions of the engine, as the shared object has them, and the memory that they are lent.

The engine tests everything that it is lent, so nothing is tested twice here: only what C cannot hold, a
number that is too large for its 32 bits, is dealt with on this side.
"""

from __future__ import annotations

import ctypes
import operator
import os
from pathlib import Path
from typing import Any, Tuple, Union

from .refusals import Refusal

#: Numbers of a value table.
VALUES = 512
#: Channels of a part in a value table.
CHANNELS = 32
#: Numbers of a place of the pool.
PLACE = 10
#: Places of the longest pool, and the largest budget.
PLACES = 65_535
#: Numbers of an answer.
ANSWER = 5
#: Bytes of the longest new deck that can pass.
LONGEST_DECK = 25_987
#: Bytes of the longest old one.
LONGEST_OLD_DECK = 42_883

#: The largest number of 32 bits. No part, place, section or budget is as large, so each call refuses it.
NONE = 0xFFFF_FFFF

BytesLike = Union[bytes, bytearray, memoryview]
Answer = ctypes.c_uint32 * ANSWER
Values = ctypes.c_int32 * VALUES


class Stretch(ctypes.Structure):
    """A part of a deck's bytes; it points into the deck that the call was given."""

    _fields_ = [("bytes", ctypes.c_void_p), ("length", ctypes.c_size_t)]


def _found() -> str:
    """The shared object: the one that REACTION_LIBRARY names, else the one beside this file."""
    named = os.environ.get("REACTION_LIBRARY")
    path = Path(named) if named else Path(__file__).with_name("libreaction.so")
    if not path.is_file():
        raise ImportError(
            f"the engine's shared object {path} is missing: `pip install` makes it, and for the sources "
            "`python3 build_backend.py FILE` does, whose file REACTION_LIBRARY then names"
        )
    return str(path.resolve())


def _loaded(path: str) -> ctypes.CDLL:
    """The shared object with the forms of its functions, as include/reaction.h has them."""
    library = ctypes.CDLL(path)
    number, length, address = ctypes.c_uint32, ctypes.c_size_t, ctypes.c_void_p
    deck = (ctypes.c_char_p, length)
    memory = (*deck, address, length, address, address)
    forms = {
        "check": deck,
        "section": (*deck, number, address),
        "start": memory,
        "input": (*memory, number, address, length),
        "commit": (*memory, number),
        "settle": (*memory, number),
        "convert": (*deck, address, length),
    }
    for name, form in forms.items():
        function = getattr(library, f"reaction_{name}")
        function.argtypes = (*form, address)
        function.restype = number
    return library


#: The path of the shared object that is loaded.
LIBRARY = _found()

engine = _loaded(LIBRARY)


def asked(function: Any, *arguments: Any) -> Tuple[int, int, int, int]:
    """The four answer numbers of a call; a refusal is raised."""
    answer = Answer()
    number = function(*arguments, answer)
    place, first, second, third, fourth = answer
    if number != 0:
        raise Refusal(number, place)
    return first, second, third, fourth


class Memory:
    """What a rig lends to its calls: the value table, the pending number, and the pool."""

    __slots__ = ("values", "pending", "pool")

    def __init__(self, pool_length: int) -> None:
        self.values = Values()
        self.pending = ctypes.c_uint32()
        self.pool = (ctypes.c_int32 * pool_length)()

    def lent(self, deck: bytes) -> Tuple[Any, ...]:
        """The first six arguments of start, input, commit and settle."""
        pending = ctypes.byref(self.pending)
        return deck, len(deck), self.pool, len(self.pool), self.values, pending

    def saved(self) -> bytes:
        """All of its numbers: the values, the pending number, the pool."""
        return b"".join((self.values, self.pending, self.pool))

    @classmethod
    def resumed(cls, saved: bytes) -> Memory:
        """The memory with these numbers. A length that no memory has is a ValueError."""
        head = 4 * (VALUES + 1)
        if len(saved) < head or len(saved) % 4 != 0:
            raise ValueError(f"{len(saved)} bytes are not the saved memory of a rig")
        memory = cls((len(saved) - head) // 4)
        ctypes.memmove(memory.values, saved, 4 * VALUES)
        memory.pending.value = int.from_bytes(saved[4 * VALUES : head], "little")
        ctypes.memmove(memory.pool, saved[head:], len(saved) - head)
        return memory


def as_whole(number: Any, what: str) -> int:
    """The number as an int. A truth or a number with a fraction is a TypeError."""
    if not isinstance(number, bool):
        try:
            return operator.index(number)
        except TypeError:
            pass
    raise TypeError(f"{what} is a whole number, not {type(number).__name__}")


def as_unsigned(number: Any, what: str) -> int:
    """A part, place, section or budget; one that has no 32 bits becomes one that is refused as well."""
    number = as_whole(number, what)
    return number if 0 <= number <= NONE else NONE


def as_channel(number: Any) -> int:
    """A channel; one beyond 31 bits becomes -1, which is no channel either."""
    number = as_whole(number, "a channel")
    return number if 0 <= number < 2**31 else -1


def as_value(number: Any) -> int:
    """A value. One beyond 32 bits is an OverflowError, as the engine could not be told of it."""
    number = as_whole(number, "a value")
    if not -(2**31) <= number < 2**31:
        raise OverflowError(f"the value {number} is not from -2,147,483,648 to 2,147,483,647")
    return number
