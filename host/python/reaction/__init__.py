"""The proved reaction engine for Python hosts.

A Deck holds channels, rules and parts. A Rig runs one: values are entered, rules fire, and the host commits
the pending updates in whatever order it likes. Whatever it is given, the engine answers, or declines with a
Refusal; a declined call changes nothing.

Decks whose rules have default actions are old ones: ``Deck.convert`` makes new decks of them.
"""

from .deck import Deck, Section
from .library import LIBRARY
from .refusals import REFUSALS, Refusal
from .rig import Committed, Rig, Settled, Update

__version__ = "0.1.0"

__all__ = ["Committed", "Deck", "LIBRARY", "REFUSALS", "Refusal", "Rig", "Section", "Settled", "Update"]
