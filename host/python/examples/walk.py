"""A leg that walks: the knee bends step by step, and what follows is committed, the newest update first.

    python3 walk.py DECK        DECK: the bytes of the deck examples/leg/leg.txt
"""

import sys
from pathlib import Path

from reaction import Deck, Refusal, Rig

# Parts of the left leg.
KNEE, ANKLE, THIGH, CALF = 1, 2, 3, 4

# Channels.
BEND, TILT, BULGE = 2, 3, 4


def bend(rig: Rig, part: int, degrees: int) -> None:
    """Enters a bend of a part and commits until nothing is pending."""
    rig.input(part, {BEND: degrees})
    applied = discarded = 0
    while rig.pending > 0:
        if rig.commit(rig.pending - 1).applied:
            applied += 1
        else:
            # The part's limit would have failed.
            discarded += 1
    print(f"bend {degrees}: {applied} applied, {discarded} discarded; ", end="")
    print(f"thigh bulges {rig[THIGH, BULGE]}, calf {rig[CALF, BULGE]}; ankle tilts {rig[ANKLE, TILT]}")


def walk(data: bytes) -> None:
    deck = Deck(data)
    print(f"{deck.channels} channels, {deck.rules} rules, {deck.parts} parts")
    rig = Rig(deck)
    for degrees in (10, 35, 55):
        bend(rig, KNEE, degrees)
    try:
        # The deck has no part 99.
        bend(rig, 99, 10)
    except Refusal as refusal:
        print(f"input: refused {refusal.number} {refusal.place}")


if __name__ == "__main__":
    if len(sys.argv) != 2:
        sys.exit("usage: walk.py DECK")
    try:
        walk(Path(sys.argv[1]).read_bytes())
    except Refusal as refusal:
        sys.exit(str(refusal))
