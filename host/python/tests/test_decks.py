"""Decks: checking, sections, conversion, and how many places an input needs."""

from __future__ import annotations

import copy
import pickle
import random
from typing import Iterator

from reaction import Deck, Refusal, Rig, Section, Settled, Update
from reaction.library import LONGEST_DECK, PLACES

from .decks import CONVERTED_E, DECK_D, DECK_E, LEG, NO_ACTION, OWN_0, TRUE, Case
from .decks import action, deck, part, rule, stored_answers, stored_deck


def answer(data: bytes) -> str:
    """The line of the proved check."""
    try:
        found = Deck(data)
    except Refusal as refusal:
        return f"refused {refusal.number} {refusal.place}"
    return f"passed {found.channels} {found.rules} {found.parts} {found.largest_charge}"


def with_room() -> Iterator[Deck]:
    """The stored decks that pass, as new or as old ones, but for those that no pool is long enough for."""
    yield Deck(LEG)
    for name in stored_answers():
        try:
            found = Deck.convert(stored_deck(name))
        except Refusal:
            continue
        if found.places_for_an_input < PLACES:
            yield found


class Decks(Case):
    def test_stored_decks_get_the_answers_of_the_proved_program(self) -> None:
        answers = stored_answers()
        self.assertEqual({name: answer(stored_deck(name)) for name in answers}, answers)
        self.assertGreater(len(answers), 100)

    def test_sections_are_the_decks_bytes(self) -> None:
        found = Deck(DECK_D)
        self.assertEqual(b"".join(found.section(number) for number in Section), found.bytes)
        self.assertEqual(found.section(0), b"\x03abc")
        for number in (3, -1, 2**32, 2**64):
            self.refused((15, 0), found.section, number)

    def test_bytes_of_any_kind_are_taken(self) -> None:
        expected = Deck(DECK_D)
        twice = bytes(byte for pair in zip(DECK_D, DECK_D) for byte in pair)
        for data in (bytearray(DECK_D), memoryview(DECK_D), memoryview(twice)[::2]):
            self.assertEqual(Deck(data), expected)
            self.assertEqual(Deck.convert(data), expected)

    def test_a_deck_keeps_its_own_bytes(self) -> None:
        data = bytearray(DECK_D)
        found = Deck(data)
        data[:] = bytes(75)
        self.assertEqual(found.bytes, DECK_D)

    def test_what_is_not_bytes_is_no_deck(self) -> None:
        for data in (75, "deck", list(DECK_D), None):
            self.assertRaises(TypeError, Deck, data)
            self.assertRaises(TypeError, Deck.convert, data)
        self.assertRaises(TypeError, Deck(DECK_D).section, 0.0)
        self.assertRaises(TypeError, Deck(DECK_D).section, True)

    def test_equality_goes_by_the_bytes(self) -> None:
        self.assertEqual(len({Deck(DECK_D), Deck(bytearray(DECK_D)), Deck(LEG)}), 2)
        self.assertNotEqual(Deck(DECK_D), DECK_D)
        self.assertEqual(pickle.loads(pickle.dumps(Deck(LEG))), Deck(LEG))
        self.assertEqual(copy.deepcopy(Deck(LEG)), Deck(LEG))
        self.assertEqual(repr(Deck(DECK_D)), "<Deck of 75 bytes: 3 channels, 2 rules, 2 parts>")

    def test_a_deck_does_not_change(self) -> None:
        with self.assertRaises(AttributeError):
            Deck(DECK_D).bytes = LEG


class Conversion(Case):
    def test_deck_e_is_converted(self) -> None:
        self.refused((20, 7), Deck, DECK_E)
        found = Deck.convert(DECK_E)
        self.assertEqual((found.bytes, found.rules), (CONVERTED_E, 3))
        rig = Rig(found, 3)
        self.assertEqual(rig.input(0, {0: 4}), 3)
        self.assertEqual(rig.updates(), [Update(0, ((1, 4),)), Update(1, ((2, 4),))])
        self.assertEqual(rig.settle(), Settled(commits=3, settled=True))
        self.assertEqual((rig.part(0).tolist(), rig.part(1).tolist()), ([4, 4, 4], [0, 0, 4]))

    def test_a_new_deck_stays_as_it_is(self) -> None:
        for data in (DECK_D, CONVERTED_E, LEG):
            self.assertEqual(Deck.convert(data).bytes, data)

    def test_the_longest_deck(self) -> None:
        number, truth = b"\x06" * 62 + OWN_0, b"\x12" * 63 + b"\x10"
        full = rule(range(8), NO_ACTION, 0, truth, action(range(8, 12), number))
        data = deck(32, [full] * 64, [part(32, range(64), truth)] * 16)
        self.assertEqual(len(data), LONGEST_DECK)
        self.assertEqual(Deck.convert(data).bytes, data)

    def test_refused_conversions(self) -> None:
        self.refused((1, 8), Deck.convert, DECK_E[:8])
        self.refused((5, 65), Deck.convert, DECK_E + b"\0")
        twice = rule([0], action([1], OWN_0), 0, TRUE, NO_ACTION)
        once = rule([0], NO_ACTION, 0, TRUE, NO_ACTION)
        for count in (31, 32):
            data = deck(2, [twice] * count + [once] * (33 - count), [part(2, range(33))])
            if count == 31:
                self.assertEqual(Deck.convert(data).rules, 64)
            else:
                self.refused((21, 0), Deck.convert, data)


def generated(source: random.Random) -> bytes:
    """A deck whose rules go from lower channels to higher ones, so that it has no cycle."""
    channels = source.randint(2, 8)
    rules = []
    for _ in range(source.randint(0, 12)):
        last = source.randint(0, channels - 2)
        events = sorted({source.randint(0, last) for _ in range(3)})
        targets = source.sample(range(last + 1, channels), source.randint(0, min(4, channels - last - 1)))
        rules.append(rule(events, NO_ACTION, source.randint(0, 1), TRUE, action(targets, OWN_0)))
    carried = [number for number in range(len(rules)) if source.random() < 0.7]
    parts = [part(channels, source.choice((carried, carried[::2]))) for _ in range(source.randint(1, 5))]
    return deck(channels, rules, parts)


class PlacesForAnInput(Case):
    def enter_at_each_part(self, found: Deck) -> bool:
        """Makes inputs of one channel and of all at each part of a fresh rig; whether some added a charge."""
        fresh, added = Rig(found), 0
        self.assertEqual(fresh.places, found.places_for_an_input)
        for number in range(found.parts):
            pairs = [(channel, value ^ 1) for channel, value in enumerate(fresh.part(number))]
            for entered in (pairs, *([pair] for pair in pairs)):
                try:
                    added += fresh.copy().input(number, entered)
                except Refusal as refusal:
                    # A limit is not what is tried here.
                    self.assertEqual(refusal.number, 17)
        return added > 0

    def test_stored_decks(self) -> None:
        self.assertGreater(sum(map(self.enter_at_each_part, with_room())), 10)

    def test_generated_decks(self) -> None:
        source = random.Random(1)
        found = []
        while len(found) < 200:
            try:
                found.append(Deck(generated(source)))
            except Refusal as refusal:
                self.assertEqual(refusal.name, "OVERCHARGED")
        found = [each for each in found if each.places_for_an_input < PLACES]
        self.assertGreater(sum(map(self.enter_at_each_part, found)), 100)

    def test_the_number(self) -> None:
        self.assertEqual(Deck(DECK_D).places_for_an_input, 4)
        # A knee carries two rules, of which one has the largest charge: nine other parts, four of them with
        # a rule that goes on.
        self.assertEqual(Deck(LEG).places_for_an_input, 2 * 13)
        self.assertEqual(Deck(deck(1, [], [part(1, [])])).places_for_an_input, 1)

    def test_it_is_never_more_than_a_pool_can_have(self) -> None:
        send = [rule([c], NO_ACTION, 1, TRUE, action([c + 1], OWN_0)) for c in range(4)]
        found = Deck(deck(5, send, [part(5, range(4))] * 16))
        self.assertEqual(found.largest_charge, 15 + 15**2 + 15**3 + 15**4)
        self.assertEqual(found.places_for_an_input, PLACES)
        self.assertEqual(Rig(found).places, PLACES)
