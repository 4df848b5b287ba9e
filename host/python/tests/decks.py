"""Decks for the tests, stored ones and ones made from their fields, and what the tests share."""

from __future__ import annotations

import unittest
from pathlib import Path
from typing import Any, Callable, Dict, Iterable, List, Tuple

from reaction import Deck, Refusal, Rig

PYTHON = Path(__file__).resolve().parent.parent
ROOT = PYTHON.parent.parent

DECK_D = (ROOT / "crates" / "replay" / "data" / "d.deck").read_bytes()
LEG = (PYTHON / "tests" / "data" / "leg.deck").read_bytes()

# Deck E of Req 03. Channels a, b, c; rule 0 sets b to a by its default action and sends a to the others' c;
# rule 1 sets c to b. Part 0 carries both, part 1 carries rule 1.
DECK_E = bytes.fromhex(
    "03 616263"
    "02 0100010102010001011101020201 00"
    "   01010000011101020201 01"
    "02 000000000000000000000000 0200010111"
    "   000000000000000000000000 01010111"
)
CONVERTED_E = bytes.fromhex(
    "03 616263"
    "03 0100000001110101020100"
    "   0100000101110102020100"
    "   0101000001110102020101"
    "02 000000000000000000000000 030001020111"
    "   000000000000000000000000 01020111"
)

# The channels of deck D. Part 1 keeps C below 10.
A, B, C = range(3)

OWN_0 = b"\x01\x00"
TRUE = b"\x11"
NO_ACTION = b"\x00"


def action(targets: Iterable[int], number: bytes) -> bytes:
    """An action that sets these channels, each to the same number."""
    assignments = [bytes([target, len(number)]) + number for target in targets]
    return bytes([len(assignments)]) + b"".join(assignments)


def rule(events: Iterable[int], default: bytes, kind: int, condition: bytes, act: bytes) -> bytes:
    """A rule from its events to its action."""
    events = bytes(events)
    return bytes([len(events)]) + events + default + bytes([kind, len(condition)]) + condition + act


def part(channels: int, carried: Iterable[int], limit: bytes = TRUE) -> bytes:
    """A part that opens with zeros."""
    carried = bytes(carried)
    return bytes(4 * channels) + bytes([len(carried)]) + carried + bytes([len(limit)]) + limit


def deck(channels: int, rules: List[bytes], parts: List[bytes]) -> bytes:
    """A deck of its rules and parts."""
    labels = bytes([channels]) + b"a" * channels
    return labels + bytes([len(rules)]) + b"".join(rules) + bytes([len(parts)]) + b"".join(parts)


def stored_answers() -> Dict[str, str]:
    """What the proved check prints for each stored deck, by the name of its file."""
    lines = (ROOT / "crates" / "check_files" / "stdout").read_text("ascii").splitlines()
    return dict(line.split(" ", 1) for line in lines)


def stored_deck(name: str) -> bytes:
    return (ROOT / "crates" / "check_files" / "data" / name).read_bytes()


def started(places: int = 2) -> Rig:
    """Deck D, just started."""
    return Rig(Deck(DECK_D), places)


class Case(unittest.TestCase):
    """A test that can ask for a refusal."""

    def refused(self, number_and_place: Tuple[int, int], call: Callable[..., Any], *arguments: Any) -> None:
        with self.assertRaises(Refusal) as caught:
            call(*arguments)
        self.assertEqual((caught.exception.number, caught.exception.place), number_and_place)

    def unchanged(self, rig: Rig, number: int, call: Callable[..., Any], *arguments: Any) -> None:
        """The call is refused by this number and leaves the rig as it was."""
        before = rig.save()
        self.refused((number, 0), call, *arguments)
        self.assertEqual(rig.save(), before)
