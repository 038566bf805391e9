"""Standard output and standard error of cluster/judge."""
import re
import sys
from typing import TextIO

ASKED = re.compile(rb"\d+: (?:PL-[\d.]+|SI) asked, ")  # a line about a level that isn't met, which `batch` prints last


class Streams:
    """Standard output and standard error, with a progress line on standard error if requested."""

    def __init__(self, count: int, is_told: bool) -> None:
        self.count, self.done, self.is_told = count, 0, is_told

    def write(self, out: bytes = b"", told: bytes = b"") -> None:
        """Writes whole lines, and clears the progress line before."""
        if self.done and self.is_told:
            write(sys.stderr, b"\r\x1b[K")
        write(sys.stdout, out)
        write(sys.stderr, told)

    def tell(self, files: int) -> None:
        """Adds to the number of judged files, and shows it."""
        self.done += files
        if self.is_told:
            write(sys.stderr, f"\r{self.done} of {self.count} files\x1b[K".encode())


def write(stream: TextIO, text: bytes) -> None:
    """Writes a text at once."""
    if text:
        stream.buffer.write(text)
        stream.buffer.flush()


def parted(told: bytes) -> tuple[bytes, bytes]:
    """The lines of a bundle's standard error: hints, and what `batch` prints after all hints."""
    lines = told.splitlines(keepends=True)
    asked = [line for line in lines if ASKED.match(line)]
    return b"".join(line for line in lines if line not in asked), b"".join(asked)
