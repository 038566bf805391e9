"""The generated scripts of recorders/made, of the kind `mixed`, and their statements."""
from __future__ import annotations

import random
import sys

from harness import TOP

sys.path.insert(1, f"{TOP}/recorders")
import making  # noqa: E402


def made(seed: int) -> str:
    return making.made(seed)


def statement(draw: random.Random) -> str:
    return making.statement(draw, making.KINDS["mixed"])
