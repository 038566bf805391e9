"""Inputs within the limits that take long to read, to judge or to play, unless the program is careful with each.

Each is made of a part of the limits: 1 for the whole, 2 for a half of what may be much, 4 for a quarter. From 20 on they are so
small that any body judges them at once, by which two programs can be compared."""
from collections.abc import Iterator

from .histories import HISTORIES, UNSOUND
from .made import Made
from .scripts import SCRIPTS
from .texts import NESTED, TEXTS

__all__ = ["HISTORIES", "Made", "NESTED", "SCRIPTS", "TEXTS", "UNSOUND", "inputs"]


def inputs() -> Iterator[tuple[str, Made]]:
    """The file name of each input, and what makes it."""
    for name, made in (HISTORIES | UNSOUND).items():
        yield f"{name}.json", made
    for name, made in SCRIPTS.items():
        yield f"{name}.txt", made
    for name, (made, _) in (TEXTS | NESTED).items():
        yield f"{name}.json", made
