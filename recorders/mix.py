"""A mix: kinds of transactions with their weights, and the statements of each, in which names are replaced by numbers.

docs/RECORDING.md, "A load, recorded in parts", describes it.
"""
from dataclasses import dataclass
from string import Template

from script import STATEMENT_BYTES, VALUES, Fault, Wrong, statement_of
from statement import TEST

DEFAULT = """\
8: select * from test where id = $a; update test set value = $next where id = $a
6: update test set value = value - $digit where id = $a; update test set value = value + $digit where id = $b
3: select * from test where value % 10 = $digit; update test set value = value + 1 where id = $a
1: update test set value = value + 3 where value % 10 = $digit
2: insert into test (id, value) values ($new, $digit)
3: select * from test where id = $old; delete from test where id = $old
"""
# The smallest and the largest numbers for names.
LEAST = {"a": 1, "b": 2, "new": 3, "old": 3, "digit": 0, "next": VALUES[0]}
GREATEST = {"a": 899, "b": 900, "new": 1000, "old": 1000, "digit": 9, "next": VALUES[1]}
STATEMENTS = 20  # of one transaction


@dataclass(frozen=True)
class Kind:
    weight: int
    statements: tuple


class Mix:
    """Kinds of transactions, drawn by their weights."""

    def __init__(self, kinds):
        self.kinds, self.weights = kinds, [kind.weight for kind in kinds]

    def drawn(self, random):
        return random.choices(self.kinds, self.weights)[0]


def with_numbers(text, numbers):
    """The statement of a text whose names are replaced by numbers."""
    try:
        statement = statement_of(Template(text).substitute(numbers))
    except (KeyError, ValueError):
        raise Wrong("UnknownName") from None
    if statement.table != TEST:
        raise Wrong("BadTableName")
    return statement


def kind_of(line):
    weight, _, rest = line.partition(":")
    if not weight.strip().isdecimal() or not 1 <= int(weight) <= 1000:
        raise Wrong("BadWeight")
    statements = tuple(text.strip() for text in rest.split(";") if text.strip())
    if not 1 <= len(statements) <= STATEMENTS:
        raise Wrong("BadCount")
    for text in statements:
        if any(len(with_numbers(text, numbers).printed()) > STATEMENT_BYTES for numbers in (LEAST, GREATEST)):
            raise Wrong("TooLong")
    return Kind(int(weight), statements)


def read(text):
    """The mix of a text; raises Fault."""
    kinds, number = [], 0
    for number, line in enumerate(text.splitlines(), 1):
        line = line.partition("--")[0].strip()
        try:
            kinds += [kind_of(line)] if line else []
        except Wrong as wrong:
            raise Fault(number, f"{wrong} (of the mix)") from None
    if not kinds:
        raise Fault(number + 1, "NoTransaction (of the mix)")
    return Mix(kinds)
