"""The subcommands, their options and the values of these, as docs/FORMATS.md has them."""
import re

from harness import TOP

# A row of the table of subcommands: the arguments.
ROW = re.compile(r"^\| `([a-z]+) ?(.*?)` \|", re.M)
OPTION = re.compile(r"(?<![\w-])--?[a-z0-9][a-z-]*")
VALUES = {
    "--engine": "locking, committed, snapshot, optimistic",
    "--require": "PL-1, PL-2, PL-2.99, PL-3, SI",
    "--phenomenon": "G0, G1a, G1b, G1c, G-single, G2-item, G2",
}
# What a subcommand takes besides.
MORE_VALUES = {("shrink", "--phenomenon"): ", SI"}


def values_due(word: str, option: str) -> str:
    """The values of a subcommand's option."""
    return VALUES[option] + MORE_VALUES.get((word, option), "")


def page(name: str) -> str:
    """The text of a page."""
    with open(f"{TOP}/docs/{name}.md", encoding="utf-8") as file:
        return file.read()


def section(text: str, heading: str) -> str:
    """The part of a page from a heading to the next one."""
    behind = text[text.index(f"# {heading}\n") + 2 :]
    found = re.search(r"^#+ ", behind, re.M)
    return behind[: found.start()] if found else behind


def options_due() -> dict[str, set[str]]:
    """The options of each subcommand."""
    due: dict[str, set[str]] = {}
    for word, arguments in ROW.findall(section(page("FORMATS"), "Subcommands")):
        due.setdefault(word, {"-h", "--help"}).update(OPTION.findall(arguments))
    return due
