"""The cases P1 to P11 of document 01, and inputs at the limit of deck D."""

from __future__ import annotations

from reaction import Committed, Deck, Refusal, Settled, Update

from .decks import DECK_D, A, B, C, Case, started

# Offsets of rule 0's and rule 1's target in deck D.
TARGET_0, TARGET_1 = 12, 23

LARGEST = 2_147_483_647


def counts(data: bytes) -> tuple:
    """R, M, N and the largest charge."""
    deck = Deck(data)
    return deck.channels, deck.rules, deck.parts, deck.largest_charge


def deck_d_with(at: int, byte: int) -> bytes:
    return DECK_D[:at] + bytes([byte]) + DECK_D[at + 1 :]


class Checking(Case):
    def test_p1_deck_d_passes(self) -> None:
        self.assertEqual(counts(DECK_D), (3, 2, 2, 2))

    def test_p2_no_bytes(self) -> None:
        self.refused((1, 0), Deck, b"")

    def test_p3_a_byte_is_missing(self) -> None:
        self.refused((1, 74), Deck, DECK_D[:74])

    def test_p4_a_byte_follows(self) -> None:
        self.refused((5, 75), Deck, DECK_D + b"\0")

    def test_p5_and_p6_cycles(self) -> None:
        self.refused((7, 0), Deck, deck_d_with(TARGET_1, 0))
        self.refused((7, 0), Deck, deck_d_with(TARGET_0, 0))

    def test_p7_a_rule_that_nobody_carries(self) -> None:
        p6 = deck_d_with(TARGET_0, 0)
        parts = bytes(12) + b"\x01\x01\x01\x11" + bytes(12) + b"\x01\x01" + p6[66:]
        self.assertEqual(counts(p6[:34] + parts), (3, 2, 2, 1))


class Running(Case):
    def test_p8_an_input_and_two_commits(self) -> None:
        rig = started(2)
        self.assertEqual(rig.input(0, {A: 4}), 2)
        self.assertEqual(rig.commit(0), Committed(applied=True, charge=1))
        self.assertEqual(rig.commit(0), Committed(applied=True, charge=0))
        self.assertEqual((rig[1, B], rig[1, C]), (4, 5))
        small = started(1)
        self.unchanged(small, 13, small.input, 0, {A: 4})

    def test_p9_a_commit_is_discarded(self) -> None:
        rig = started(2)
        self.assertEqual(rig.input(0, {A: 9}), 2)
        self.assertEqual(rig.commit(0), Committed(applied=True, charge=1))
        self.assertEqual(rig.commit(0), Committed(applied=False, charge=0))
        self.assertEqual(rig[1, C], 0)

    def test_p10_the_same_input_adds_nothing(self) -> None:
        rig = started(2)
        self.assertEqual(rig.input(0, {A: 4}), 2)
        self.assertEqual(rig.settle(2), Settled(commits=2, settled=True))
        self.assertEqual(rig.input(0, {A: 4}), 0)

    def test_p11_the_sum_clamps(self) -> None:
        rig = started(2)
        self.assertEqual(rig.input(0, {A: LARGEST}), 2)
        self.assertEqual(rig.commit(0), Committed(applied=True, charge=1))
        self.assertEqual(rig.updates(), [Update(1, ((C, LARGEST),))])
        self.assertEqual(rig.commit(0), Committed(applied=False, charge=0))


class AtTheLimit(Case):
    def test_an_input_stops_at_the_limit(self) -> None:
        rig = started(1)
        self.assertEqual(rig.input(1, {C: 9}), 0)
        # A limit is that of its own part, and part 0 has none.
        self.assertEqual(rig.input(0, {C: 10}), 0)
        self.unchanged(rig, 17, rig.input, 1, {C: 10})
        # 11 and 12 come before, 13 after: there is room for one update, and A brings two.
        self.unchanged(rig, 17, rig.input, 1, {A: 4, C: 10})
        self.unchanged(rig, 13, rig.input, 1, {A: 4, C: 9})
        self.unchanged(rig, 11, rig.input, 2, {C: 10})
        self.unchanged(rig, 12, rig.input, 1, [(C, 10), (C, 10)])

    def test_the_stop_is_found_by_halving_on_copies(self) -> None:
        rig = started(2)
        before = rig.save()
        within, outside = 0, 1000
        while outside - within > 1:
            middle = (within + outside) // 2
            try:
                rig.copy().input(1, {C: middle})
                within = middle
            except Refusal as refusal:
                self.assertEqual(refusal.name, "INPUT_OUTSIDE")
                outside = middle
        self.assertEqual(within, 9)
        self.assertEqual(rig.save(), before)

    def test_what_follows_is_held_back_by_commits(self) -> None:
        rig = started(2)
        self.assertEqual(rig.input(1, {B: 9}), 1)
        self.assertEqual(rig.commit(0), Committed(applied=False, charge=0))
        self.assertEqual((rig[1, B], rig[1, C]), (9, 0))
