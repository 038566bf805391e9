"""How types of the code are read: each is cut out of its file with its comment, part by part, and the names in it
followed to the files that declare them."""
import functools
import glob
import os
import re
from typing import NamedTuple

from harness import TOP
from sources import behind, code_of, names_in

GHOST_USE = re.compile(r"^[ \t]*ghost use ([^;]+);", re.M)
CODE_USE = re.compile(r"^(?:pub )?use ([^;]+);", re.M)
VALUE = re.compile(r"^ *(ghost Value = \{ .* \});$", re.M)


class Part(NamedTuple):
    """A part of a type: its lines as they stand, what of them names other types, and its name where it is a variant."""

    lines: list
    types: str
    variant: str = None


class Type(NamedTuple):
    """A type: its comment and its parts; where it has a model, its head, the line of its value, and the uses there."""

    comment: list
    parts: list
    value: str = None
    uses: tuple = ()


@functools.lru_cache(maxsize=None)
def type_in(file, name):
    """The type of a name that a file declares, if it does."""
    with open(f"{TOP}/{file}", encoding="utf-8") as source:
        lines = source.read().splitlines()
    code = code_of(f"{TOP}/{file}")
    plain = code.splitlines()
    first = next((n for n, line in enumerate(plain) if re.match(rf"pub (struct|enum|type) {name}\b", line)), None)
    if first is None:
        return None
    above = first
    while lines[above - 1].startswith(("///", "#[")):
        above -= 1
    comment = [line for line in lines[above:first] if line.startswith("///")]
    model = re.search(rf"^impl(?:<[^{{]*?>)? Model for {name}\b[^{{]*\{{", code, re.M)
    if model:
        body = code[model.start() : behind(code, model.end())]
        head = re.match(r"[^{;(]*", lines[first]).group().rstrip()
        return Type(comment, [Part([head], "")], VALUE.search(body).group(1), tuple(GHOST_USE.findall(body)))
    last = next(n for n in range(first, len(plain)) if ";" in plain[n] or plain[n].startswith("}"))
    is_enum = plain[first].startswith("pub enum")
    return Type(comment, list(parts_of(lines[first : last + 1], plain[first : last + 1], name, is_enum)))


def parts_of(lines, plain, name, is_enum):
    """The parts of a type's text: its head, each field or variant with its comment, and its end."""
    yield Part(lines[:1], plain[0].partition(name)[2])
    held = []
    for line, code in zip(lines[1:], plain[1:]):
        held.append(line)
        if not line.strip().startswith("///"):
            variant = re.match(r"    (\w+)", code) if is_enum else None
            yield Part(held, code[variant.end() :] if variant else code, variant and variant.group(1))
            held = []


@functools.lru_cache(maxsize=None)
def file_of(file, name):
    """The file of these crates that declares a type which the code of a file names, if one does."""
    if type_in(file, name):
        return file
    brought = dict(pair for tree in CODE_USE.findall(code_of(f"{TOP}/{file}")) for pair in names_in(tree))
    first = brought.get(name, "").partition("::")[0]
    crate = file.split("/")[1] if first == "crate" else first
    others = sorted(glob.glob(f"{TOP}/crates/{crate}/src/**/*.rt", recursive=True)) if crate.startswith("lab_") else []
    return next((found for other in others if type_in(found := os.path.relpath(other, TOP), name)), None)
