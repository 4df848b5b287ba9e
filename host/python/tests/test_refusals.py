"""Refusals: their numbers, names and words, and that each can be brought about."""

from __future__ import annotations

import copy
import ctypes
import pickle
import re
import struct
from typing import Any, Callable, List, Tuple

from reaction import REFUSALS, Deck, Refusal, Rig
from reaction.library import asked, engine

from .decks import DECK_D, NO_ACTION, OWN_0, ROOT, TRUE, A, C, Case
from .decks import action, deck, part, rule, started, stored_answers


def numbers_of(calls: List[Callable[[], Any]]) -> List[int]:
    """By which number each call is refused, 0 where it is not."""
    numbers = []
    for call in calls:
        try:
            call()
            numbers.append(0)
        except Refusal as refusal:
            numbers.append(refusal.number)
    return numbers


def converted_into(buffer_length: int) -> Tuple[int, ...]:
    """The package always lends room enough, so that 22 takes a call of the engine itself."""
    buffer = ctypes.create_string_buffer(80)
    return asked(engine.reaction_convert, DECK_D, len(DECK_D), buffer, buffer_length)


class Table(Case):
    def test_it_counts_from_1_to_22(self) -> None:
        self.assertEqual([number for number, _, _ in REFUSALS], list(range(1, 23)))
        self.assertEqual(len({name for _, name, _ in REFUSALS}), 22)

    def test_names_are_those_of_the_engine(self) -> None:
        source = (ROOT / "crates" / "refusals" / "src" / "lib.rt").read_text()
        enumeration = source.split("pub enum Refusal {\n", 1)[1].split("\n}", 1)[0]
        variants = re.findall(r"^ +(\w+) = (\d+),$", enumeration, re.MULTILINE)
        constants = [(re.sub(r"(?<=\w)(?=[A-Z])", "_", name).upper(), number) for name, number in variants]
        self.assertEqual([(name, str(number)) for number, name, _ in REFUSALS], constants)

    def test_words_are_those_of_the_rust_crate(self) -> None:
        source = (ROOT / "host" / "src" / "refusal.rs").read_text()
        names = source.split("const NAMES", 1)[1].split("];", 1)[0]
        self.assertEqual([words for _, _, words in REFUSALS], re.findall(r'^ +"(.*)",$', names, re.MULTILINE))


class Exceptions(Case):
    def test_number_place_name_and_words(self) -> None:
        with self.assertRaises(Refusal) as caught:
            started().commit(0)
        refusal = caught.exception
        self.assertEqual((refusal.number, refusal.place), (14, 0))
        self.assertEqual((refusal.name, refusal.words), ("PLACE_NOT_PENDING", "the place is not pending"))
        self.assertEqual(str(refusal), "refused 14 0: the place is not pending")
        self.assertEqual(repr(refusal), "Refusal(14, 0)")

    def test_they_can_be_pickled(self) -> None:
        for again in (pickle.loads(pickle.dumps(Refusal(8, 65))), copy.copy(Refusal(8, 65))):
            self.assertIs(type(again), Refusal)
            self.assertEqual((again.number, again.place, again.name), (8, 65, "OVERCHARGED"))

    def test_a_number_that_the_engine_does_not_have(self) -> None:
        self.assertEqual(str(Refusal(23)), "refused 23 0: no refusal of the engine")
        self.assertEqual(Refusal(23).name, "UNKNOWN")


class EachNumber(Case):
    def test_of_a_deck(self) -> None:
        # tests/test_decks.py holds the package to these.
        answers = [line.split() for line in stored_answers().values()]
        numbers = {int(words[1]) for words in answers if words[0] == "refused"}
        self.assertEqual(numbers, {1, 2, 3, 4, 5, 6, 7, 8, 18, 19, 20})

    def test_of_a_rig(self) -> None:
        rig, full = started(), started(1)
        bad = bytearray(rig.save())
        struct.pack_into("<I", bad, 4 * 512, 1)
        calls = [
            lambda: Rig(rig.deck, 0),
            lambda: Rig.resume(rig.deck, bad),
            lambda: rig.input(2, {A: 4}),
            lambda: rig.input(0, {3: 4}),
            lambda: full.input(0, {A: 4}),
            lambda: rig.commit(0),
            lambda: rig.deck.section(3),
            lambda: rig.settle(65_536),
            lambda: rig.input(1, {C: 10}),
        ]
        self.assertEqual(numbers_of(calls), list(range(9, 18)))

    def test_of_a_conversion(self) -> None:
        twice = rule([0], action([1], OWN_0), 0, TRUE, NO_ACTION)
        old = deck(2, [twice] * 33, [part(2, range(33))])
        calls = [lambda: Deck(old), lambda: Deck.convert(old), lambda: converted_into(74)]
        self.assertEqual(numbers_of(calls), [20, 21, 22])
        self.assertEqual(converted_into(75), (75, 0, 0, 0))
