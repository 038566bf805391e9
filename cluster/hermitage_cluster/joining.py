"""The results of `chain` for consecutive bundles of a run's parts, joined by the program itself."""
import os
import subprocess

from hermitage_cluster.arguments import Stop

MOST = 100  # results that are kept; joining is associative, so they can be joined at any time


class Joining:
    """The results so far, in files of a folder."""

    def __init__(self, program: str, room: str) -> None:
        self.program, self.room, self.count = program, room, 0
        self.paths: list[str] = []
        self.last: bytes | None = None

    def keep(self, answer: bytes) -> None:
        """Writes a result to a file."""
        self.count += 1
        self.paths.append(os.path.join(self.room, str(self.count)))
        with open(self.paths[-1], "wb") as file:
            file.write(answer)

    def add(self, answer: bytes) -> None:
        """Adds the result of the next bundle."""
        if len(self.paths) == MOST:
            joined = self.joined(["--json"]).stdout
            for path in self.paths:
                os.remove(path)
            self.paths = []
            self.keep(joined)
        self.keep(answer)

    def seam(self, answer: bytes, asked: list[str]) -> bytes:
        """Standard error of the program that joins the last result and this one, if a level is required of the run."""
        before, self.last = self.last, answer
        if not asked or before is None:
            return b""
        paths = [os.path.join(self.room, name) for name in ("before", "behind")]
        for path, text in zip(paths, (before, answer)):
            with open(path, "wb") as file:
                file.write(text)
        told = self.ran(*asked, "--join", *paths).stderr
        for path in paths:
            os.remove(path)
        return told

    def joined(self, words: list[str]) -> subprocess.CompletedProcess[bytes]:
        """Runs the program that joins the results, with these arguments. Without results, it gets a run without parts."""
        ended = self.ran(*words, *(["--join", *self.paths] if self.paths else ["--files-from", os.devnull]))
        if ended.returncode not in range(4) or not ended.stdout:
            raise Stop(f"the program that joins answers ended with {ended.returncode}: {ended.stderr.decode()}")
        return ended

    def unread(self) -> bytes:
        """The result for an unreadable part: no file in the folder has this name."""
        return self.ran("--json", "0").stdout.splitlines(keepends=True)[-1]

    def ran(self, *words: str) -> subprocess.CompletedProcess[bytes]:
        """Runs `chain` with these arguments."""
        return subprocess.run([self.program, "chain", *words], cwd=self.room, capture_output=True, check=False)
