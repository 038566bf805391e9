"""Pages with parts that a test prints: how such a part is written, and compared with what the page has.

In a page, a part that `tests/NAME` prints is between the lines `<!-- printed by tests/NAME: PART -->` and
`<!-- printed -->`. What is around it is written by people.
"""
import os
import re

from harness import NAME, TOP, Tally

PART = re.compile(rf"(<!-- printed by tests/{NAME}: (\w+) -->\n)(.*?)(<!-- printed -->\n)", re.S)


def write(page: str, parts: dict[str, str]) -> None:
    """Puts the texts of these parts, by name, into a page."""
    with open(page, encoding="utf-8") as file:
        text = file.read()
    with open(page, "w", encoding="utf-8") as file:
        file.write(PART.sub(lambda found: found[1] + parts[found[2]] + found[4], text))


def compare(tally: Tally, page: str, parts: dict[str, str]) -> None:
    """Counts the parts of a page that are as printed, and those that aren't."""
    with open(page, encoding="utf-8") as file:
        there = {name: text for _, name, text, _ in PART.findall(file.read())}
    name = os.path.relpath(page, TOP)
    for part, text in parts.items():
        tally.note(there.get(part) == text, f"{name}: the part {part} isn't what tests/{NAME} --write prints")
    for part in there.keys() - parts.keys():
        tally.note(False, f"{name}: tests/{NAME} prints no part {part}")


def table(*rows: list[str]) -> str:
    """The lines of a table with these rows, of which the first is the head."""
    head, *others = rows
    lines = [f"| {' | '.join(row)} |" for row in (head, ["---"] * len(head), *others)]
    return "\n".join(lines) + "\n"
