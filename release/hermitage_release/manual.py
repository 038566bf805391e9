"""Manual pages: `hermitage_lab.1`, and one for each group of subcommands."""
import re

from hermitage_release.command_line import Item, Program, Subcommand

NAME = "hermitage_lab"
# Each group: what it does, and its subcommands.
GROUPS = {
    "scripts": ("play scripts of interleaved transactions", ("serial", "run", "compare", "case", "matrix")),
    "histories": ("judge a history of transactions, and show why", ("judge", "explain", "picture", "page", "shrink")),
    "many": ("judge many histories, or a run in parts", ("batch", "chain")),
}
SHARE = "/usr/share/hermitage-lab"


def escaped(text: str) -> str:
    """A text that roff prints as it is."""
    text = text.replace("\\", "\\e").replace("-", "\\-")
    return re.sub(r"^(?=[.'])", r"\\&", text, flags=re.M)


def prose(text: str) -> str:
    """A paragraph, with the texts between backquotes in bold face."""
    return re.sub(r"`([^`]*)`", r"\\fB\1\\fR", escaped(" ".join(text.split())))


def description(whole: str) -> str:
    """The paragraphs of a help text. Those that are indented are examples."""
    lines: list[str] = []
    for block in whole.split("\n\n"):
        if block.startswith("    "):
            lines += [".PP", ".nf", ".RS 4", escaped(re.sub(r"^    ", "", block, flags=re.M)), ".RE", ".fi"]
        else:
            lines += [".PP", prose(block)]
    return "\n".join(lines)


def described(item: Item) -> str:
    """An option or an argument."""
    value = f"\\fI{escaped(item.value.upper())}\\fR" if item.value else ""
    names = ", ".join(f"\\fB{escaped(name)}\\fR" for name in item.names())
    values = f" One of {', '.join(f'`{value}`' for value in item.values)}." if item.values else ""
    return f".TP\n{' '.join(filter(None, (names, value)))}\n{prose(item.text.rstrip('.') + '.' + values)}"


def heading(name: str, version: str, about: str) -> str:
    """The head of a page, up to its name."""
    return f'.TH {name.upper()} 1 "" "hermitage_lab {version}" "User Commands"\n.SH NAME\n{name} \\- {escaped(about)}'


def status_lines(program: Program) -> str:
    """The exit statuses."""
    return "\n".join([".SH EXIT STATUS", *(f".TP\n.B {status}\n{prose(meaning)}." for status, meaning in program.statuses)])


def see_also(but: str) -> str:
    """References to the other pages, and to the documentation."""
    names = [NAME, *(f"{NAME}-{group}" for group in GROUPS)]
    pages = ", ".join(f"\\fB{escaped(name)}\\fR(1)" for name in names if name != but)
    return f".SH SEE ALSO\n{pages}\n.PP\nThe pages in \\fI{escaped(SHARE)}/docs\\fR."


def of_subcommand(made: Subcommand) -> str:
    """The section of a subcommand."""
    items = [*made.arguments, *made.options]
    return "\n".join([f".SH {NAME.upper()} {made.name.upper()}", description(made.whole), *map(described, items)])


def of_group(program: Program, group: str) -> str:
    """The page of a group."""
    about, names = GROUPS[group]
    made = [found for name in names for found in program.subcommands if found.name == name]
    synopsis = "\n.br\n".join(f"\\fB{NAME} {one.name}\\fR {escaped(one.usage.partition(one.name + ' ')[2])}" for one in made)
    head = heading(f"{NAME}-{group}", program.version, about)
    parts = [
        head,
        f".SH SYNOPSIS\n{synopsis}",
        *map(of_subcommand, made),
        status_lines(program),
        see_also(f"{NAME}-{group}"),
    ]
    return "\n".join(parts) + "\n"


def of_program(program: Program) -> str:
    """The page of the program."""
    parts = [heading(NAME, program.version, "check the isolation of database transactions")]
    parts += [
        f".SH SYNOPSIS\n\\fB{NAME}\\fR \\fICOMMAND\\fR [\\fIARGUMENT\\fR ...]",
        ".SH DESCRIPTION",
        prose(program.about),
    ]
    parts += [".PP", "\\fBhermitage_lab help\\fR \\fICOMMAND\\fR prints the help of a command."]
    for group, (about, names) in GROUPS.items():
        parts.append(f".SS To {escaped(about)}: see \\fB{NAME}\\-{group}\\fR(1)")
        parts += [f".TP\n.B {made.name}\n{prose(made.about)}." for made in program.subcommands if made.name in names]
    parts += [".SH OPTIONS", *map(described, program.options), status_lines(program), ".SH FILES"]
    for folder, text in (
        ("recorders", "Commands that record runs on PostgreSQL, MariaDB and SQLite. They need python3"),
        ("cluster", "`judge`, which has the workers of a Dask cluster judge files"),
        ("examples", "Scripts and histories"),
        ("schemas", "JSON schemas of histories and reports"),
    ):
        parts.append(f".TP\n.I {escaped(SHARE)}/{folder}\n{prose(text)}.")
    parts += [see_also(NAME), ".SH LICENCE", "MIT OR Apache\\-2.0"]
    return "\n".join(parts) + "\n"


def pages(program: Program) -> dict[str, str]:
    """The text of each page. A subcommand's own page leads to that of its group."""
    grouped = [name for _, names in GROUPS.values() for name in names]
    if sorted(grouped) != sorted(made.name for made in program.subcommands):
        raise ValueError(f"release: the groups of the manual have the subcommands {grouped}, and not those of the program")
    found = {f"{NAME}.1": of_program(program)}
    for group, (_, names) in GROUPS.items():
        found[f"{NAME}-{group}.1"] = of_group(program, group)
        found |= {f"{NAME}-{name}.1": f".so man1/{NAME}-{group}.1\n" for name in names}
    return found
