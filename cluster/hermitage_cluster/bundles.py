"""Bundles of consecutive files, each the work of one task. Results refer to files by number; names are restored here."""
import json
import os
import pickle
import re
import zlib
from collections import deque
from collections.abc import Callable, Iterable, Iterator
from concurrent.futures import Future, ThreadPoolExecutor

FILES, BYTES = 512, 4_000_000  # a bundle with this many is full
A_FILE = 4_000  # judging takes as long as for this many bytes, whatever a file's length
AHEAD = 4  # bundles that are packed in advance
MOST_BYTES = 8 * 1024 * 1024  # the longest history; the program refuses a longer one after one more byte
SMALL = 1 << 16  # most files are smaller, and are read without a buffer for the longest
SHOWN = 200  # bytes of a name on standard error
HEAD, MEMBER, TOLD = (
    re.compile(pattern, re.M) for pattern in (rb"^== (\d+)$", rb'"(file|first)":"(\d+)"', rb"^(\d+): (.*)$")
)

# The beginning of a line about an unmet requirement, and the characters that a terminal interprets.
SHORTFALL = re.compile(rb"(?:PL-[0-9.]+|SI) asked,")
CONTROLS = re.compile("[\\x00-\\x1f\\x7f-\\x9f\\u200b-\\u200f\\u2028-\\u202e\\u2060-\\u206f\\ufeff]")


# What workers get for a file: its text, its path, or None if it can't be read.
File = bytes | str | None
Look = Callable[[bytes], File]


def shown(name: bytes) -> bytes:
    """A name as the program prints it on standard error."""
    printable = re.sub(rb"[^ -~]", b"?", name)
    return printable if len(printable) <= SHOWN else printable[:SHOWN] + b".."


def shown_in_requirement(name: bytes) -> bytes:
    """A name as the program prints it in a line about an unmet requirement: `?` for each character that a terminal interprets."""
    return CONTROLS.sub("?", name.decode(errors="replace")).encode()


def quoted(name: bytes) -> bytes:
    """A name as a JSON string, as the program writes it."""
    return json.dumps(name.decode(), ensure_ascii=False).encode()


class Bundle:
    """Consecutive files: their names, and `packed`, what workers get for them. `reasons` says why a file can't be read, by
    its number."""

    def __init__(self, names: list[bytes], reasons: dict[int, bytes]) -> None:
        self.names, self.reasons, self.packed = names, reasons, b""

    def pack(self, files: list[File]) -> "Bundle":
        """The bundle, with these files."""
        self.packed = zlib.compress(pickle.dumps(files), 1)
        return self

    def singles(self) -> Iterator["Bundle"]:
        """Yields bundles of one file each."""
        for place, (name, file) in enumerate(zip(self.names, pickle.loads(zlib.decompress(self.packed)))):
            reasons = {0: self.reasons[place]} if place in self.reasons else {}
            yield Bundle([name], reasons).pack([file])

    def named(self, out: bytes) -> bytes:
        """The program's output, with the files' numbers replaced by their names."""
        out = HEAD.sub(lambda found: b"== " + self.names[int(found[1])], out)
        return MEMBER.sub(lambda found: b'"%s":%s' % (found[1], quoted(self.names[int(found[2])])), out)

    def told(self, err: bytes) -> bytes:
        """The program's standard error, with names; the reason for an unreadable file is the one found here."""
        return TOLD.sub(lambda found: self.line(int(found[1]), found[2]), err)

    def line(self, place: int, text: bytes) -> bytes:
        """A line of standard error about a file."""
        name = self.names[place]
        if SHORTFALL.match(text):
            return b"%s: %s" % (shown_in_requirement(name), text)
        if place in self.reasons:
            text = self.reasons[place]
        elif text.startswith(b"it can't be opened"):
            # Workers have the file by another name.
            text += rule(name).encode()
        return b"%s: %s" % (shown(name), text)


def by_text(name: bytes) -> File:
    """The text of a file."""
    with open(name, "rb") as file:
        text = file.read(SMALL)
        if len(text) == SMALL:
            text += file.read(MOST_BYTES + 1 - SMALL)
    return text


def by_path(name: bytes) -> File:
    """The path of a file, which may exist only on the workers."""
    if b"\0" in name:
        raise ValueError("a NUL in a name")
    return os.fsdecode(os.path.abspath(name)) if name else None


def reason(name: bytes, why: OSError | ValueError) -> bytes:
    """Why a file can't be read, as the program prints it."""
    if not isinstance(why, OSError):
        return f"it can't be opened: file name contained an unexpected NUL byte{rule(name)}".encode()
    said = f"{why.strerror} (os error {why.errno})"
    if isinstance(why, IsADirectoryError):
        return f"a read failed: {said}".encode()
    return f"it can't be opened: {said}{rule(name)}".encode()


def rule(name: bytes) -> str:
    """What else is said of a name that names no file."""
    if name.endswith(b"\r"):
        return "; the name ends with a carriage return, as in a list whose lines end with CRLF"
    return "; '-' is a file of this name, and not standard input" if name == b"-" else ""


def length(name: bytes) -> int:
    """How long judging a file takes, in bytes."""
    try:
        return A_FILE + min(os.path.getsize(name), MOST_BYTES)
    except (OSError, ValueError):
        return A_FILE


def shares(names: list[bytes], least: int) -> Iterator[list[bytes]]:
    """Consecutive names, in some `least` shares of nearly equal length if there are as many files; more shares if one would
    exceed the limits of a bundle."""
    lengths = list(map(length, names))
    most, full = -(-len(names) // least), min(sum(lengths) // least, BYTES)
    share: list[bytes] = []
    size = 0
    for name, more in zip(names, lengths):
        if share and (size + more // 2 > full or len(share) == min(most, FILES)):
            yield share
            share, size = [], 0
        share.append(name)
        size += more
    if share:
        yield share


def looked_at(names: list[bytes], look: Look) -> tuple[Bundle, list[File]]:
    """A bundle of these files, not packed yet. `look` is by_text or by_path."""
    files: list[File] = []
    reasons: dict[int, bytes] = {}
    for name in names:
        try:
            files.append(look(name))
        except (OSError, ValueError) as why:
            reasons[len(files)] = reason(name, why)
            files.append(None)
    return Bundle(names, reasons), files


def bundles(names: Iterable[list[bytes]], look: Look) -> Iterator[Bundle]:
    """The bundles of these shares, packed: some in advance, in threads, since packing takes longer than the rest."""
    with ThreadPoolExecutor(AHEAD) as pool:
        begun: deque[Future[Bundle]] = deque()
        for share in names:
            bundle, files = looked_at(share, look)
            begun.append(pool.submit(bundle.pack, files))
            if len(begun) > AHEAD:
                yield begun.popleft().result()
        while begun:
            yield begun.popleft().result()
