"""Rigs: values and views of them, saving and resuming, and arguments of every kind."""

from __future__ import annotations

import copy
import enum
import gc
import itertools
import pickle
import random
import struct
from typing import Any

from reaction import Committed, Deck, Refusal, Rig, Settled, Update
from reaction.library import PLACES, VALUES

from .decks import DECK_D, LEG, A, B, C, Case, started

# Offsets into what is saved of a rig.
PENDING = 4 * VALUES
POOL = PENDING + 4

OUTSIDE_32_BITS = (2**31, -(2**31) - 1, 2**32, 2**32 + 4, 2**64, -(2**64))
NO_NUMBERS = (1.0, True, "1", None, b"1", [1])


def with_update() -> Rig:
    """Deck D with one update pending, part 1's b to 4."""
    rig = started()
    rig.input(0, {A: 4})
    return rig


def changed(saved: bytes, at: int, number: int) -> bytes:
    """What was saved, with another number at an offset."""
    return saved[:at] + struct.pack("<i", number) + saved[at + 4 :]


class Values(Case):
    def test_by_part_and_channel(self) -> None:
        rig = with_update()
        rig.settle()
        expected = {(0, A): 4, (0, B): 0, (0, C): 0, (1, A): 0, (1, B): 4, (1, C): 5}
        self.assertEqual({key: rig[key] for key in expected}, expected)
        self.assertEqual({key: rig.value(*key) for key in expected}, expected)

    def test_what_the_deck_does_not_have(self) -> None:
        rig = started()
        for part, channel in ((2, 0), (-1, 0), (0, 3), (0, -1), (15, 31), (2**32, 0), (0, 2**64)):
            self.assertRaises(IndexError, rig.value, part, channel)
            self.assertRaises(IndexError, lambda: rig[part, channel])
        for part in (2, -1, 2**40):
            self.assertRaises(IndexError, rig.part, part)

    def test_keys_of_another_kind(self) -> None:
        rig = started()
        for key in (0, (0,), (0, 0, 0), slice(None), "00", (0, 0.0), (False, 0), (0, slice(None))):
            self.assertRaises(TypeError, lambda: rig[key])
        self.assertRaises(TypeError, iter, rig)
        with self.assertRaises(TypeError):
            rig[0, 0] = 4

    def test_a_table_of_512(self) -> None:
        rig = with_update()
        rig.settle()
        view = rig.values
        self.assertEqual((len(view), view.format, view.itemsize, view.readonly), (512, "i", 4, True))
        self.assertEqual({at: n for at, n in enumerate(view) if n != 0}, {A: 4, 32 + B: 4, 32 + C: 5})
        self.assertEqual(rig.part(1).tolist(), [0, 4, 5])
        self.assertEqual((rig.part(1).format, rig.part(1).readonly), ("i", True))


class Views(Case):
    def test_they_follow_the_rig(self) -> None:
        rig = started()
        table, part = rig.values, rig.part(1)
        rig.input(0, {A: -7})
        rig.settle()
        self.assertEqual((table[A], part.tolist()), (-7, [0, -7, -6]))

    def test_they_cannot_be_written(self) -> None:
        rig = started()
        for view in (rig.values, rig.part(0)):
            with self.assertRaises(TypeError):
                view[0] = 4
        self.assertEqual(rig[0, 0], 0)

    def test_they_outlive_the_rig_and_each_other(self) -> None:
        rig = with_update()
        rig.values.release()
        part, table = rig.part(0), rig.values
        part.release()
        del rig
        gc.collect()
        self.assertEqual(table[A], 4)

    def test_those_of_a_copy_are_its_own(self) -> None:
        rig = started()
        other = rig.copy()
        other.input(0, {A: 4})
        self.assertEqual((rig.values[A], other.values[A]), (0, 4))


class Calls(Case):
    def test_updates_and_their_order(self) -> None:
        rig = started(4)
        self.assertEqual(rig.updates(), [])
        rig.input(0, {A: 4})
        rig.input(0, {B: 7})
        self.assertEqual(rig.updates(), [Update(1, ((B, 4),)), Update(0, ((C, 8),))])
        self.assertEqual(rig.commit(1), Committed(applied=True, charge=2))
        self.assertEqual(rig.updates(), [Update(part=1, pairs=((B, 4),))])
        self.assertEqual((rig.pending, rig.places, rig.deck), (1, 4, Deck(DECK_D)))
        self.assertEqual(repr(rig), "<Rig of 2 parts: 1 pending, 4 places>")

    def test_settling_within_a_budget(self) -> None:
        rig = with_update()
        self.assertEqual(rig.settle(0), Settled(commits=0, settled=False))
        self.assertEqual(rig.settle(1), Settled(commits=1, settled=False))
        self.assertEqual(rig.settle(), Settled(commits=1, settled=True))
        self.assertEqual(rig.settle(), Settled(commits=0, settled=True))

    def test_answers_are_numbers_and_truths(self) -> None:
        rig = started()
        self.assertIs(type(rig.input(0, {A: 4})), int)
        self.assertEqual([type(field) for field in rig.commit(0)], [bool, int])
        self.assertEqual([type(field) for field in rig.settle()], [int, bool])

    def test_pairs_of_any_kind(self) -> None:
        saved = set()
        by_keys = dict(((A, 4), (C, 5)))
        pairs = (by_keys, by_keys.items(), [(A, 4), (C, 5)], ([A, 4], [C, 5]), zip((A, C), (4, 5)))
        for values in pairs:
            rig = started()
            self.assertEqual(rig.input(0, values), 2)
            saved.add(rig.save())
        self.assertEqual(len(saved), 1)

    def test_numbers_by_name(self) -> None:
        channel = enum.IntEnum("channel", "SIDE KIND BEND TILT", start=0)
        rig = Rig(Deck(LEG))
        rig.input(1, {channel.BEND: 10})
        self.assertEqual(rig[1, channel.BEND], 10)

    def test_whole_numbers_of_another_type(self) -> None:
        class Whole:
            def __index__(self) -> int:
                return 1

        rig = started()
        self.assertEqual(rig.input(Whole(), [(Whole(), Whole())]), 1)
        self.assertEqual((rig[Whole(), Whole()], rig.part(Whole())[1]), (1, 1))

    def test_the_extreme_values(self) -> None:
        for value in (2**31 - 1, -(2**31)):
            rig = started()
            rig.input(0, {A: value})
            self.assertEqual(rig[0, A], value)


class Arguments(Case):
    def test_values_beyond_32_bits(self) -> None:
        rig = with_update()
        before = rig.save()
        for value in OUTSIDE_32_BITS:
            with self.assertRaisesRegex(OverflowError, f"^the value {value} is not from"):
                rig.input(0, {A: value})
            self.assertRaises(OverflowError, rig.input, 0, [(B, 1), (A, value)])
        self.assertEqual(rig.save(), before)

    def test_numbers_that_are_refused(self) -> None:
        rig = with_update()
        for number in (-1, *OUTSIDE_32_BITS):
            self.unchanged(rig, 11, rig.input, number, {A: 4})
            self.unchanged(rig, 12, rig.input, 0, {number: 4})
            self.unchanged(rig, 14, rig.commit, number)
            self.unchanged(rig, 16, rig.settle, number)
        self.unchanged(rig, 14, rig.commit, 1)

    def test_lists_that_are_refused(self) -> None:
        rig = with_update()
        for values in ({}, [], [(A, 1)] * 2, [(A, 1)] * 33, {c: 1 for c in range(33)}):
            self.unchanged(rig, 12, rig.input, 0, values)
        self.unchanged(rig, 12, rig.input, 0, itertools.repeat((A, 1)))

    def test_places(self) -> None:
        deck = Deck(DECK_D)
        for places in (0, -1, PLACES + 1, 2**32 + 1, 2**64, -(2**64)):
            self.refused((9, 0), Rig, deck, places)
        self.assertEqual([Rig(deck, places).places for places in (1, PLACES)], [1, PLACES])
        self.assertEqual((Rig(deck).places, Rig(deck, None).places), (4, 4))

    def test_what_is_no_whole_number(self) -> None:
        rig = with_update()
        before = rig.save()
        for wrong in NO_NUMBERS:
            for call in (rig.commit, rig.settle, rig.part, rig.deck.section):
                self.assertRaises(TypeError, call, wrong)
            self.assertRaises(TypeError, rig.input, wrong, {A: 4})
            self.assertRaises(TypeError, rig.input, 0, [(wrong, 4)])
            self.assertRaises(TypeError, rig.input, 0, {A: wrong})
            self.assertRaises(TypeError, rig.value, 0, wrong)
        for wrong in (1.0, True, "1"):
            self.assertRaises(TypeError, Rig, rig.deck, wrong)
        self.assertEqual(rig.save(), before)

    def test_what_is_no_list_of_pairs(self) -> None:
        rig = with_update()
        before = rig.save()
        for wrong in (4, None, [1, 2], ["ab"]):
            self.assertRaises(TypeError, rig.input, 0, wrong)
        for wrong in ("ab", [(A, 1, 2)], [(A,)]):
            self.assertRaises(ValueError, rig.input, 0, wrong)
        self.assertEqual(rig.save(), before)

    def test_what_is_no_deck(self) -> None:
        for wrong in (DECK_D, None, 4):
            self.assertRaises(TypeError, Rig, wrong)
            self.assertRaises(TypeError, Rig, wrong, 4)
            self.assertRaises(TypeError, Rig.resume, wrong, started().save())


class Saving(Case):
    def assertSame(self, again: Any, rig: Rig) -> None:
        self.assertIsNot(again, rig)
        self.assertEqual((again.save(), again.deck), (rig.save(), rig.deck))

    def test_a_rig_is_resumed(self) -> None:
        rig = with_update()
        saved = rig.save()
        for kind in (bytes, bytearray, memoryview):
            again = Rig.resume(rig.deck, kind(saved))
            self.assertSame(again, rig)
            self.assertEqual((again.updates(), again.places), (rig.updates(), 2))
        self.assertEqual(again.settle(), rig.settle())
        self.assertSame(again, rig)
        self.assertNotEqual(rig.save(), saved)

    def test_copies(self) -> None:
        rig = with_update()
        pickled = pickle.loads(pickle.dumps(rig))
        for again in (rig.copy(), copy.copy(rig), copy.deepcopy(rig), pickled):
            self.assertSame(again, rig)
            again.settle()
            self.assertEqual((again.pending, rig.pending), (0, 1))

    def test_what_is_saved(self) -> None:
        saved = with_update().save()
        numbers = struct.unpack(f"<{len(saved) // 4}i", saved)
        self.assertEqual(len(numbers), 512 + 1 + 2 * 10)
        self.assertEqual({at: n for at, n in enumerate(numbers[:512]) if n != 0}, {A: 4})
        self.assertEqual(numbers[512:], (1, 1, 1, B, 4) + (0,) * 16)

    def test_lengths_that_nothing_saved_has(self) -> None:
        deck, saved = Deck(DECK_D), started().save()
        for length in (0, 4, POOL - 4, POOL - 1, POOL + 1, len(saved) - 1):
            self.assertRaises(ValueError, Rig.resume, deck, saved[:length])
        self.assertRaises(TypeError, Rig.resume, deck, "saved")
        self.assertRaises(TypeError, Rig.resume, deck, 2052)

    def test_pools_that_are_refused(self) -> None:
        deck, saved = Deck(DECK_D), started().save()
        for numbers in (0, 1, 9, 11, 19, 10 * PLACES + 10):
            self.refused((9, 0), Rig.resume, deck, saved[:POOL] + bytes(4 * numbers))
        longest = Rig.resume(deck, saved[:POOL] + bytes(40 * PLACES))
        self.assertEqual(longest.places, PLACES)

    def test_damaged_memory(self) -> None:
        rig = with_update()
        saved = rig.save()
        damages = {
            # A value of a channel or of a part that the deck does not have.
            4 * 3: 1,
            4 * 64: 1,
            # Nothing pending, two pending, and more than there are places.
            PENDING: (0, 2, 3, -1),
            # Part, count and channel of the update; an unused number; a place that is not pending.
            POOL: (2, -1),
            POOL + 4: (0, 2, 5, -1),
            POOL + 8: (3, -1),
            POOL + 16: 1,
            POOL + 76: 1,
        }
        for at, numbers in damages.items():
            for number in numbers if isinstance(numbers, tuple) else (numbers,):
                with self.subTest(at=at, number=number):
                    self.refused((10, 0), Rig.resume, rig.deck, changed(saved, at, number))
        self.refused((10, 0), Rig.resume, Deck(DECK_D), Rig(Deck(LEG)).save())

    def test_whatever_is_resumed_is_refused_or_taken_as_it_is(self) -> None:
        source, deck = random.Random(1), Deck(LEG)
        rig = Rig(deck)
        rig.input(1, {2: 10})
        saved = rig.save()
        taken = 0
        for _ in range(2000):
            at = 4 * source.choice((source.randrange(VALUES), source.randrange(VALUES, len(saved) // 4)))
            damaged = changed(saved, at, source.choice((-1, 0, 1, 2, 3, 9, 2**31 - 1, -(2**31))))
            try:
                self.assertEqual(Rig.resume(deck, damaged).save(), damaged)
                taken += 1
            except Refusal as refusal:
                self.assertEqual(refusal.number, 10)
        self.assertIn(taken, range(100, 1900))

    def test_other_values_may_be_a_good_state(self) -> None:
        rig = started()
        outside = Rig.resume(rig.deck, changed(rig.save(), 4 * (32 + C), 12))
        self.assertEqual(outside[1, C], 12)
        self.unchanged(outside, 17, outside.input, 1, {A: 1})
        self.assertEqual(outside.input(1, {C: 3}), 0)
