"""Why a call declines."""

from __future__ import annotations

#: Number, name and words of each refusal. The numbers are those of include/reaction.h.
REFUSALS = (
    (1, "DECK_ENDS", "the deck ends inside a field or expression"),
    (2, "OUT_OF_RANGE", "a number of the deck is out of its range, or a list does not rise"),
    (3, "UNKNOWN_BYTE", "an expression has an unknown operator or channel"),
    (4, "REPEATED_TARGET", "a target stands twice in an action"),
    (5, "BYTES_FOLLOW", "bytes follow the last section"),
    (6, "OPENS_OUTSIDE", "a part opens outside its limit"),
    (7, "CYCLIC_GRAPH", "the dependency graph has a cycle"),
    (8, "OVERCHARGED", "a carried rule's charge is above 65,535"),
    (9, "BAD_POOL", "the pool's length is not a multiple of 10 from 10 to 655,350"),
    (10, "BAD_STATE", "the state is not a good one"),
    (11, "UNKNOWN_PART", "there is no such part"),
    (12, "BAD_INPUT", "the input is not 1 to 32 pairs of known, different channels"),
    (13, "OVER_CAPACITY", "the charge after the input would exceed the pool's places"),
    (14, "PLACE_NOT_PENDING", "the place is not pending"),
    (15, "UNKNOWN_SECTION", "the section number is above 2"),
    (16, "BUDGET_TOO_LARGE", "the budget is above 65,535"),
    (17, "INPUT_OUTSIDE", "the input would leave its part outside its limit"),
    (18, "WRONG_TYPE", "a value of an expression is of the wrong type, or a far channel is not allowed there"),
    (19, "WRONG_END", "an expression ends early or has bytes left over"),
    (20, "DEFAULT_RETIRED", "a default action is not empty"),
    (21, "TOO_MANY_RULES", "the conversion would have more than 64 rules"),
    (22, "BUFFER_TOO_SHORT", "the buffer is shorter than the new deck"),
)

_BY_NUMBER = {number: (name, words) for number, name, words in REFUSALS}
_NONE = ("UNKNOWN", "no refusal of the engine")


class Refusal(Exception):
    """Why a call declined: a number from 1 to 22, and where.

    >>> from reaction import Deck
    >>> try:
    ...     Deck(b"")
    ... except Refusal as refusal:
    ...     print(refusal.number, refusal.place, refusal.name)
    ...     print(refusal)
    1 0 DECK_ENDS
    refused 1 0: the deck ends inside a field or expression
    """

    #: Which refusal it is.
    number: int

    #: For 1 the deck's length; for 2 to 5 and 18 to 20 an offset into the deck; for 6 the part; for 7 the
    #: channel; for 8 64 times part + rule; otherwise 0. For 19 of an expression that ends early it is the
    #: offset of the first byte behind the expression, and so may be the deck's length, where no byte is.
    place: int

    def __init__(self, number: int, place: int = 0) -> None:
        # The arguments of the exception are those of this method, so that it can be pickled.
        super().__init__(number, place)
        self.number = number
        self.place = place

    @property
    def name(self) -> str:
        """The name of the refusal, as ``PLACE_NOT_PENDING``."""
        return _BY_NUMBER.get(self.number, _NONE)[0]

    @property
    def words(self) -> str:
        """What the refusal says, as "the place is not pending"."""
        return _BY_NUMBER.get(self.number, _NONE)[1]

    def __str__(self) -> str:
        return f"refused {self.number} {self.place}: {self.words}"
