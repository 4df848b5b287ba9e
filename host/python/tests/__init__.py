"""Tests of the package on its sources. In the folder above: python3 -m unittest discover -s tests -t .

The shared object is the one that REACTION_LIBRARY names; where none is named, it is made for this run.
"""

import os
import tempfile
from pathlib import Path

import build_backend

if "REACTION_LIBRARY" not in os.environ:
    # Kept as long as the tests run, and deleted with the last of them.
    made = tempfile.TemporaryDirectory()
    path = Path(made.name, build_backend.OBJECT)
    build_backend.make_shared_object(path)
    os.environ["REACTION_LIBRARY"] = str(path)
