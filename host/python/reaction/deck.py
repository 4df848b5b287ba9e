"""Decks that passed."""

from __future__ import annotations

import builtins
import ctypes
from enum import IntEnum
from typing import Tuple

from .library import LONGEST_DECK, PLACES, BytesLike, Stretch, as_unsigned, asked, engine


class Section(IntEnum):
    """The sections of a deck."""

    #: The labels of the channels.
    CHANNELS = 0
    #: The rules.
    RULES = 1
    #: The parts with their opening values, carried rules and limits.
    PARTS = 2


class Deck:
    """A deck that passed, with its bytes. It never changes, and two with the same bytes are equal.

    ``Deck(data)`` checks any bytes-like object and raises a Refusal where it does not pass. A deck with
    default actions is refused by 20: see :meth:`convert`.

    >>> deck = Deck(b"\\x01a\\x00\\x01\\x07\\x00\\x00\\x00\\x00\\x01\\x11")
    >>> deck
    <Deck of 11 bytes: 1 channels, 0 rules, 1 parts>
    >>> deck.section(Section.CHANNELS)
    b'\\x01a'
    """

    __slots__ = ("_bytes", "_counts")

    _bytes: builtins.bytes
    _counts: Tuple[int, int, int, int]

    def __init__(self, data: BytesLike) -> None:
        # A number or a list of numbers would make bytes as well, but are no deck.
        self._bytes = memoryview(data).tobytes()
        self._counts = asked(engine.reaction_check, self._bytes, len(self._bytes))

    @classmethod
    def convert(cls, old: BytesLike) -> Deck:
        """The new deck that an old one becomes; a Refusal says why the old one does not pass.

        Rules of an old deck may have default actions, and each of those becomes two rules. From a fresh
        start the new deck gives every input, commit and settle what the old one gave. A new deck stays as
        it is, so that it does not matter which form a deck has.
        """
        data = memoryview(old).tobytes()
        # No new deck is longer, so the buffer is never too short.
        buffer = ctypes.create_string_buffer(LONGEST_DECK)
        length = asked(engine.reaction_convert, data, len(data), buffer, LONGEST_DECK)[0]
        return cls(buffer.raw[:length])

    @property
    def channels(self) -> int:
        """The number of channels, 1 to 32."""
        return self._counts[0]

    @property
    def rules(self) -> int:
        """The number of rules, up to 64."""
        return self._counts[1]

    @property
    def parts(self) -> int:
        """The number of parts, 1 to 16."""
        return self._counts[2]

    @property
    def largest_charge(self) -> int:
        """The largest charge of any carried rule: so many updates at most follow from one that fires."""
        return self._counts[3]

    @property
    def places_for_an_input(self) -> int:
        """So many places suffice for any one input while nothing is pending.

        It is the most rules that one part carries times the largest charge, at least 1. An input at a part
        makes at most those rules active that the part carries, and each of them adds updates whose charges
        sum to at most its own charge. No pool has more than 65,535 places: where the product is larger,
        this is 65,535, and a large input may still be refused by 13.
        """
        return min(max(self._most_carried() * self.largest_charge, 1), PLACES)

    def section(self, number: int) -> builtins.bytes:
        """The bytes of a section (see :class:`Section`), from its count to its end."""
        stretch = Stretch()
        number = as_unsigned(number, "a section number")
        asked(engine.reaction_section, self._bytes, len(self._bytes), number, ctypes.byref(stretch))
        # Taken from the deck by its offset, so that nothing rests on the pointer.
        first = ctypes.cast(ctypes.c_char_p(self._bytes), ctypes.c_void_p).value
        start = (stretch.bytes or 0) - (first or 0)
        return self._bytes[start : start + stretch.length]

    def _most_carried(self) -> int:
        """The most rules that one part carries. docs/FORMAT.md has the bytes of a part."""
        parts = self.section(Section.PARTS)
        most, at = 0, 1
        for _ in range(self.parts):
            at += 4 * self.channels
            carried = parts[at]
            most = max(most, carried)
            at += 1 + carried
            at += 1 + parts[at]
        return most

    def __eq__(self, other: object) -> bool:
        return self._bytes == other._bytes if isinstance(other, Deck) else NotImplemented

    def __hash__(self) -> int:
        return hash(self._bytes)

    def __reduce__(self) -> tuple:
        return type(self), (self._bytes,)

    def __repr__(self) -> str:
        counts = f"{self.channels} channels, {self.rules} rules, {self.parts} parts"
        return f"<Deck of {len(self._bytes)} bytes: {counts}>"

    # Behind all else, as it hides the type of the same name in the class.
    @property
    def bytes(self) -> builtins.bytes:
        """The deck's bytes."""
        return self._bytes
