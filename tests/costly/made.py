"""What the inputs have in common."""
from collections.abc import Callable, Iterator

# What makes an input of a part of the limits.
Made = Callable[[int], bytes]
# The value of a row by its number.
Values = Callable[[int], int]
# The most bytes of a file.
FILE = 8_388_608
TABLES = "stock", "test", "zone", "zones"


def forever(statement: str) -> Iterator[str]:
    """The same statement again and again."""
    while True:
        yield statement
