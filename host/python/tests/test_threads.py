"""Threads that share a rig, and their stacks."""

from __future__ import annotations

import threading
import unittest
from typing import Callable, List

from reaction import Deck, Refusal, Rig

from .decks import DECK_D, LEG, A, B, C

KNEE, BEND = 1, 2


def run(works: List[Callable[[], None]]) -> List[BaseException]:
    """Runs each in a thread of its own, all at once; what went wrong."""
    wrong: List[BaseException] = []
    together = threading.Barrier(len(works))

    def running(work: Callable[[], None]) -> None:
        try:
            together.wait()
            work()
        except BaseException as error:
            wrong.append(error)

    threads = [threading.Thread(target=running, args=(work,)) for work in works]
    for thread in threads:
        thread.start()
    for thread in threads:
        thread.join()
    return wrong


class Threads(unittest.TestCase):
    def test_they_share_a_rig(self) -> None:
        rig = Rig(Deck(LEG), 2000)

        def enter() -> None:
            for degrees in range(200):
                try:
                    rig.input(KNEE, {BEND: degrees})
                except Refusal as refusal:
                    self.assertEqual(refusal.name, "OVER_CAPACITY")

        def commit() -> None:
            for _ in range(400):
                try:
                    rig.commit(0)
                except Refusal as refusal:
                    self.assertEqual(refusal.name, "PLACE_NOT_PENDING")

        def look() -> None:
            # Each is a good state, or it would be refused by 10.
            for _ in range(100):
                Rig.resume(rig.deck, rig.save())
                self.assertTrue(all(1 <= update.part <= 9 for update in rig.updates()))

        self.assertEqual(run([enter, commit, look, commit, enter]), [])
        self.assertTrue(rig.settle().settled)
        Rig.resume(rig.deck, rig.save())

    def test_each_update_is_committed_once(self) -> None:
        rig = Rig(Deck(DECK_D), 1000)
        # Part 0's b to another number each time: its c is to follow, so many updates of charge 1.
        for value in range(1, 401):
            rig.input(0, {B: value})
        self.assertEqual(rig.pending, 400)
        works = [lambda: [rig.commit(0) for _ in range(100)]] * 4
        self.assertEqual(run(works), [])
        self.assertEqual(rig.pending, 0)
        self.assertIn(rig[0, C], range(2, 402))

    def test_a_stack_of_a_mebibyte_is_enough(self) -> None:
        before = threading.stack_size(1 << 20)
        try:
            self.assertEqual(run([self.use_the_longest_pool]), [])
        finally:
            threading.stack_size(before)

    def use_the_longest_pool(self) -> None:
        rig = Rig(Deck(DECK_D), 65_535)
        self.assertEqual(rig.input(0, {A: 4}), 2)
        self.assertEqual(rig.settle().commits, 2)
