"""The program's command line, read from its help."""
import re
import subprocess
from dataclasses import dataclass

# The first line of an option, and that of an argument.
OPTION = re.compile(r"^ {2,6}(?:(-\w), )?(--[\w-]+)(?: <(\S+)>)?$")
ARGUMENT = re.compile(r"^  [<\[](\w+)[>\]](?:\.\.\.)?$")
VALUES = re.compile(r"\[possible values: (.*?)\]", re.S)
LISTED = re.compile(r"^  ([a-z]+) +(\S.*)$", re.M)
# A subcommand that the parser adds: it has no help of its own.
HELP = "help"


@dataclass
class Item:
    """An option, or an argument if `long` is empty. `value` is the name of its value, and empty if it takes none."""

    short: str
    long: str
    value: str
    text: str
    values: list[str]

    def names(self) -> list[str]:
        """The option's names, the short one first."""
        return [name for name in (self.short, self.long) if name]


@dataclass
class Subcommand:
    """A subcommand: its line in the list, and the parts of its help."""

    name: str
    about: str
    whole: str
    usage: str
    arguments: list[Item]
    options: list[Item]


@dataclass
class Program:
    """The program's help. `statuses` has a number and its meaning each."""

    version: str
    about: str
    options: list[Item]
    statuses: list[tuple[str, str]]
    subcommands: list[Subcommand]


def printed(program: str, *words: str) -> str:
    """The standard output of the program."""
    return subprocess.run([program, *words], stdin=subprocess.DEVNULL, capture_output=True, check=True).stdout.decode()


def section(text: str, heading: str) -> str:
    """The lines below a heading of a help text, up to the next one."""
    found = re.search(rf"^{heading}:\n((?: .*\n|\n)*)", text + "\n", re.M)
    return found[1] if found else ""


def items(lines: str) -> list[Item]:
    """The options or arguments of a section."""
    found: list[Item] = []
    for line in lines.splitlines():
        if option := OPTION.match(line):
            found.append(Item(option[1] or "", option[2], option[3] or "", "", []))
        elif argument := ARGUMENT.match(line):
            found.append(Item("", "", argument[1], "", []))
        elif found:
            found[-1].text += f"{line.strip()}\n"
    for item in found:
        if values := VALUES.search(item.text):
            item.values, item.text = " ".join(values[1].split()).split(", "), item.text.replace(values[0], "")
        item.text = " ".join(item.text.split())
    return found


def statuses(text: str) -> list[tuple[str, str]]:
    """The exit statuses of a help text."""
    found = re.findall(r"^  (\d)  (.*(?:\n {5}.*)*)", section(text, "Exit status"), re.M)
    return [(status, " ".join(meaning.split())) for status, meaning in found]


def subcommand(program: str, name: str, about: str) -> Subcommand:
    """A subcommand, from its help."""
    text = printed(program, name, "--help")
    whole, _, rest = text.partition("\nUsage: ")
    usage = rest.partition("\n")[0]
    return Subcommand(
        name, about, whole.strip("\n"), usage, items(section(text, "Arguments")), items(section(text, "Options"))
    )


def short_options(lines: str) -> list[Item]:
    """The options of a section in which each has one line."""
    found = re.findall(r"^ +(?:(-\w), )?(--[\w-]+) +(\S.*)$", lines, re.M)
    return [Item(short, long, "", text, []) for short, long, text in found]


def read(program: str) -> Program:
    """The command line of a program."""
    text = printed(program, "--help")
    listed = [found for found in LISTED.findall(section(text, "Commands")) if found[0] != HELP]
    version = printed(program, "-V").split()[1].strip(",")
    subcommands = [subcommand(program, name, about) for name, about in listed]
    return Program(version, text.partition("\n")[0], short_options(section(text, "Options")), statuses(text), subcommands)
