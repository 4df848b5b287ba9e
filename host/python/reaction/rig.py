"""Rigs: a deck at work."""

from __future__ import annotations

import ctypes
from itertools import islice
from threading import RLock
from typing import Any, Iterable, List, Mapping, NamedTuple, Optional, Tuple, Union

from .deck import Deck
from .library import CHANNELS, PLACE, PLACES, BytesLike, Memory
from .library import as_channel, as_unsigned, as_value, as_whole, asked, engine

Pairs = Union[Mapping[int, int], Iterable[Tuple[int, int]]]

#: The most pairs of an input.
_PAIRS = 32


class Committed(NamedTuple):
    """What a commit did."""

    #: Whether the update was applied; otherwise its part's limit would have failed, and it was discarded.
    applied: bool
    #: The charge now pending: so many commits at most until nothing is pending.
    charge: int


class Settled(NamedTuple):
    """What a settle did."""

    #: The number of commits made.
    commits: int
    #: Whether nothing is pending now; otherwise the budget was used.
    settled: bool


class Update(NamedTuple):
    """A pending update: values that channels of a part are to get."""

    #: The part that it is for.
    part: int
    #: Channels and the values that they are to get, in order.
    pairs: Tuple[Tuple[int, int], ...]


class Rig:
    """A deck at work: its values and the updates that wait to be committed.

    ``Rig(deck, places)`` starts a deck with its opening values, nothing pending, and so many places for
    pending updates, 1 to 65,535; without a number it has ``deck.places_for_an_input``. More are needed
    where inputs are made while the updates of earlier ones are still pending.

    A call that is declined raises a Refusal and changes nothing. Whole numbers that the engine cannot be
    told are refused as it refuses others that are too large; only a value beyond 32 bits is an
    OverflowError. Anything that is not a whole number is a TypeError.

    Threads may share a rig: each call waits for the one before. A call needs up to 640 KiB of stack where the
    rig has more than 2,048 places, and up to 64 KiB otherwise; what Python itself needs comes on top. That
    matters where ``threading.stack_size`` was set low.
    """

    __slots__ = ("_deck", "_memory", "_lock", "_values", "__weakref__")

    _deck: Deck
    _memory: Memory
    _values: memoryview

    def __init__(self, deck: Deck, places: Optional[int] = None) -> None:
        data = _a_deck(deck).bytes
        places = deck.places_for_an_input if places is None else as_whole(places, "the number of places")
        # A pool of no places is refused as one of too many is, but needs no memory for that.
        memory = Memory(PLACE * places if 0 < places <= PLACES else 0)
        asked(engine.reaction_start, *memory.lent(data))
        self._take(deck, memory)

    @classmethod
    def resume(cls, deck: Deck, saved: BytesLike) -> Rig:
        """The rig that :meth:`save` saved, with the deck that it had.

        The engine tests what was saved: damaged memory, or that of another deck, is refused by 9 or 10
        unless it happens to be a good state. Bytes of a length that nothing saved has are a ValueError.
        """
        memory = Memory.resumed(memoryview(saved).tobytes())
        # A settle without commits tests all of it and changes nothing.
        asked(engine.reaction_settle, *memory.lent(_a_deck(deck).bytes), 0)
        rig = cls.__new__(cls)
        rig._take(deck, memory)
        return rig

    def _take(self, deck: Deck, memory: Memory) -> None:
        self._deck = deck
        self._memory = memory
        # The interpreter's own lock is free during a call, so that others could make one too. A thread
        # may come here again by a signal, between two calls, and must not wait for itself.
        self._lock = RLock()
        self._values = memoryview(memory.values).cast("B").cast("i").toreadonly()

    def _asked(self, function: Any, *arguments: Any) -> Tuple[int, int, int, int]:
        with self._lock:
            return asked(function, *self._memory.lent(self._deck.bytes), *arguments)

    def input(self, part: int, values: Pairs) -> int:
        """Sets channels of a part, ``{channel: value}`` or pairs; rules fire for those that change.

        Returns the charge added. Values that would leave the part outside its limit are refused by 17, all
        of them: a control that is dragged stays where it was.
        """
        pairs = values.items() if isinstance(values, Mapping) else values
        numbers: List[int] = []
        # A list is refused for its length from one pair too many on, so no more of it is read.
        for channel, value in islice(pairs, _PAIRS + 1):
            numbers += (as_channel(channel), as_value(value))
        lent = (ctypes.c_int32 * len(numbers))(*numbers)
        return self._asked(engine.reaction_input, as_unsigned(part, "a part"), lent, len(numbers))[0]

    def commit(self, place: int) -> Committed:
        """Commits the pending update at a place; later ones move down."""
        applied, charge, _, _ = self._asked(engine.reaction_commit, as_unsigned(place, "a place"))
        return Committed(applied == 1, charge)

    def settle(self, budget: int = PLACES) -> Settled:
        """Commits place 0 until nothing is pending or so many commits are made, 0 to 65,535.

        As the charge is never above 65,535 and each commit lowers it, the budget that is meant without a
        number always settles.
        """
        commits, settled, _, _ = self._asked(engine.reaction_settle, as_unsigned(budget, "a budget"))
        return Settled(commits, settled == 1)

    def value(self, part: int, channel: int) -> int:
        """The value of a channel of a part; an IndexError if the deck has no such part or channel."""
        part = self._known(part, self._deck.parts, "part")
        channel = self._known(channel, self._deck.channels, "channel")
        with self._lock:
            return self._values[CHANNELS * part + channel]

    def __getitem__(self, part_and_channel: Tuple[int, int]) -> int:
        """``rig[part, channel]`` is ``rig.value(part, channel)``."""
        if not isinstance(part_and_channel, tuple) or len(part_and_channel) != 2:
            raise TypeError("a value is found by rig[part, channel]")
        return self.value(*part_and_channel)

    # With __getitem__ alone Python would take a rig for a list of values.
    __iter__ = None

    def part(self, part: int) -> memoryview:
        """The values of a part, one for each channel of the deck; see :attr:`values`."""
        start = CHANNELS * self._known(part, self._deck.parts, "part")
        return self._values[start : start + self._deck.channels]

    @staticmethod
    def _known(number: int, count: int, what: str) -> int:
        """The number of a part or channel, which counts from 0, not from the end."""
        number = as_whole(number, f"a {what}")
        if not 0 <= number < count:
            raise IndexError(f"there is no {what} {number}: the deck has {count}")
        return number

    @property
    def values(self) -> memoryview:
        """All 512 values, those of channel c of part p at 32 p + c, as the engine has them (format ``i``).

        The view cannot be written. It stays valid, also without the rig, and always shows the rig's values
        of the moment. While another thread makes a call it may show some values before and some after it.
        """
        return self._values[:]

    @property
    def pending(self) -> int:
        """The number of pending updates."""
        with self._lock:
            return self._memory.pending.value

    def updates(self) -> List[Update]:
        """The pending updates, in the order of their places."""
        with self._lock:
            numbers = self._memory.pool[: PLACE * self._memory.pending.value]
        return [_update(numbers[at : at + PLACE]) for at in range(0, len(numbers), PLACE)]

    @property
    def places(self) -> int:
        """The number of places for pending updates."""
        return len(self._memory.pool) // PLACE

    @property
    def deck(self) -> Deck:
        """The deck."""
        return self._deck

    def save(self) -> bytes:
        """The whole state, for :meth:`resume`, which needs the deck too: that is not in it.

        Numbers of four bytes, low byte first: 512 values, the number of pending updates, and ten numbers
        for each place of the pool, as the engine has them.
        """
        with self._lock:
            return self._memory.saved()

    def copy(self) -> Rig:
        """A rig of its own in the same state, to try something on."""
        return type(self).resume(self._deck, self.save())

    def __reduce__(self) -> tuple:
        return type(self).resume, (self._deck, self.save())

    def __repr__(self) -> str:
        return f"<Rig of {self._deck.parts} parts: {self.pending} pending, {self.places} places>"


def _a_deck(deck: Deck) -> Deck:
    if not isinstance(deck, Deck):
        raise TypeError(f"a rig needs a Deck, not {type(deck).__name__}: Deck(data) checks bytes")
    return deck


def _update(numbers: List[int]) -> Update:
    """The update of a place."""
    part, count, *pairs = numbers
    return Update(part, tuple(zip(pairs[: 2 * count : 2], pairs[1 : 2 * count : 2])))
