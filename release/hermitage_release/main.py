"""What release/make does."""
import argparse
import os
import shutil
import subprocess
import sys
import tempfile
from pathlib import Path

from hermitage_release import command_line, completions, manual, packing
from hermitage_release.linking import Unlinked, link
from hermitage_release.packing import NAME, SYSTEM, TOP

ABOUT = """Makes a release from a checkout: an archive, a Debian package, and their checksums.

Writes to FOLDER hermitage_lab-VERSION-x86_64-linux.tar.gz, hermitage-lab_VERSION_amd64.deb, sha256sums and Dockerfile. Both
have the program, the recorders, cluster/judge, manual pages, completions, JSON schemas, examples, pages and licences. The
program is linked statically from the object file beside PROGRAM (PROGRAM.o, as ./prove leaves it), so it runs on any Linux on
x86-64. The same checkout and libraries give the same bytes.
"""
EPILOG = """exit status: 0 done; 1 a file is missing, or a command failed; standard error says which. 2 an argument was refused.
"""


def arguments() -> argparse.Namespace:
    """The arguments of this call."""
    as_written = argparse.RawDescriptionHelpFormatter
    made = argparse.ArgumentParser("release/make", description=ABOUT, epilog=EPILOG, formatter_class=as_written)
    made.add_argument("folder", metavar="FOLDER", type=Path, help="where the files are written; made if there is none")
    made.add_argument("--program", metavar="PROGRAM", type=Path, help="the program (default: that of programs/find)")
    made.add_argument("--dynamic", action="store_true", help="pack PROGRAM itself, which needs the C library")
    made.add_argument("--manual", metavar="FOLDER", type=Path, help="write only the manual pages and the completions, there")
    return made.parse_args()


def stop(why: object) -> None:
    """Prints why there is no release, and exits."""
    print(f"release: {why}", file=sys.stderr)
    sys.exit(1)


def found_program() -> Path:
    """The program that is built from the current sources."""
    ran = subprocess.run([TOP / "programs/find"], stdout=subprocess.PIPE, text=True, check=False)
    if ran.returncode:
        # (It has printed the reason.)
        sys.exit(1)
    return Path(ran.stdout.strip())


def seconds() -> int:
    """The time that the files of a release have: SOURCE_DATE_EPOCH, or that of the last commit, or 0."""
    if given := os.environ.get("SOURCE_DATE_EPOCH"):
        return int(given)
    ran = subprocess.run(["git", "-C", TOP, "log", "-1", "--format=%ct"], capture_output=True, text=True, check=False)
    return int(ran.stdout or 0)


def make(out: Path, program: Path, is_static: bool) -> list[Path]:
    """Packs a program, and returns the files of the release."""
    read, when = command_line.read(str(program)), seconds()
    pages, files = manual.pages(read), completions.files(read)
    with tempfile.TemporaryDirectory() as room:
        archive, package = Path(room) / f"{NAME}-{read.version}-{SYSTEM}", Path(room) / "package"
        for tree in archive, package:
            tree.mkdir()
        packing.of_archive(archive, program, pages, files)
        packing.of_package(package, program, pages, files)
        packing.documents(package, is_static)
        packing.control(package, read.version, is_static)
        for tree in archive, package:
            packing.settle(tree, when)
        made = [packing.pack_archive(archive, out, when), packing.pack_package(package, out, read.version, when)]
    shutil.copy(TOP / "release/Dockerfile", out)
    packing.sums(out, made)
    return made


def write_manual(folder: Path, program: Path) -> None:
    """Writes the manual pages and the completions to a folder."""
    read = command_line.read(str(program))
    for name, text in (manual.pages(read) | completions.files(read)).items():
        packing.write(folder / ("man1" if name.endswith(".1") else "completions") / name, text)


def main() -> None:
    """Makes a release."""
    given = arguments()
    program = given.program or found_program()
    if given.manual:
        write_manual(given.manual, program)
        return
    given.folder.mkdir(parents=True, exist_ok=True)
    try:
        with tempfile.TemporaryDirectory() as room:
            packed = program
            if not given.dynamic:
                packed = Path(room) / NAME
                link(program.with_name(f"{program.name}.o"), packed)
            for path in make(given.folder, packed, not given.dynamic):
                print(path)
    except Unlinked as why:
        stop(f"{why}; --dynamic packs the program as it is")
    except (OSError, ValueError, subprocess.CalledProcessError) as why:
        stop(why)
