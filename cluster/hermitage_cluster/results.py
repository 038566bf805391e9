"""Results that are kept in a folder, so that a call that was cut short can be resumed."""
import hashlib
import json
import os

from hermitage_cluster.bundles import Bundle
from hermitage_cluster.on_workers import Answer

SHARES = "bundles.json"


class Results:
    """The results in a folder, or none without a folder. A file's name is a checksum of all that a result depends on: the
    program's version, the arguments, and the files of the bundle (with --shared their names, and not their text)."""

    def __init__(self, folder: str | None, about: list[str]) -> None:
        self.folder, self.about = folder, json.dumps(about).encode()
        if folder:
            os.makedirs(folder, exist_ok=True)

    def path(self, bundle: Bundle) -> str:
        """Where the result for a bundle is kept."""
        return f"{self.folder}/{hashlib.sha256(self.about + bundle.packed).hexdigest()}.json"

    def least(self, found: int) -> int:
        """The number of bundles by which the files are divided: that of the first call with this folder."""
        if not self.folder:
            return found
        kept = read(f"{self.folder}/{SHARES}")
        if isinstance(kept, int) and kept > 0:
            return kept
        write(f"{self.folder}/{SHARES}", found)
        return found

    def kept(self, bundle: Bundle) -> Answer | None:
        """The result that an earlier call left for a bundle."""
        found = read(self.path(bundle)) if self.folder else None
        if not isinstance(found, dict):
            return None
        out, told, line = (found[name] and found[name].encode("latin-1") for name in ("out", "told", "line"))
        return found["status"], out or b"", told or b"", line

    def keep(self, bundle: Bundle, answer: Answer) -> None:
        """Keeps the result for a bundle."""
        if self.folder:
            status, out, told, line = answer
            texts = {"out": out.decode("latin-1"), "told": told.decode("latin-1")}
            write(self.path(bundle), {"status": status, **texts, "line": line and line.decode("latin-1")})


def read(path: str) -> object:
    """The JSON of a file, or None if it isn't there or isn't whole."""
    try:
        with open(path, encoding="utf-8") as file:
            found: object = json.load(file)
            return found
    except (FileNotFoundError, ValueError):
        return None


def write(path: str, content: object) -> None:
    """Writes a file as a whole or not at all."""
    with open(f"{path}.new", "w", encoding="utf-8") as file:
        json.dump(content, file)
    os.replace(f"{path}.new", path)
