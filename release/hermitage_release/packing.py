"""The archive and the Debian package."""
import gzip
import hashlib
import os
import shutil
import subprocess
import tarfile
from pathlib import Path
from typing import IO, cast

TOP = Path(__file__).resolve().parents[2]
NAME, PACKAGE, SYSTEM = "hermitage_lab", "hermitage-lab", "x86_64-linux"
FOLDERS = "recorders", "cluster", "examples", "docs"
SCHEMAS = "history", "report", "chain"
LICENCES = "LICENSE-MIT", "LICENSE-APACHE"
COMPLETIONS = {
    f"{NAME}.bash": f"bash-completion/completions/{NAME}",
    f"_{NAME}": f"zsh/vendor-completions/_{NAME}",
    f"{NAME}.fish": f"fish/vendor_completions.d/{NAME}.fish",
}
CONTROL = """Package: {package}
Version: {version}
Architecture: amd64
Maintainer: The hermitage_lab developers <hermitage-lab@invalid.invalid>
Section: database
Priority: optional
Installed-Size: {size}
Depends: {depends}
Suggests: postgresql-client, mariadb-client, python3-distributed
Description: checks the isolation level of database transactions
 hermitage_lab judges recorded histories of transactions: whether they are
 serializable, whether they are possible under snapshot isolation, and which
 anomalies they show. Its verdicts are formally proved. The package has
 recorders for PostgreSQL, MariaDB and SQLite.
"""
COPYRIGHT = """Format: https://www.debian.org/doc/packaging-manuals/copyright-format/1.0/
Upstream-Name: hermitage_lab

Files: *
Copyright: 2026 The hermitage_lab developers
License: MIT or Apache-2.0
Comment: {linked}

License: MIT
{mit}

License: Apache-2.0
 On Debian systems, the text is in /usr/share/common-licenses/Apache-2.0.
"""
LINKED = {
    True: "The program contains parts of the GNU C Library (LGPL-2.1-or-later), linked statically. release/make of the "
    "sources links it again with another C library.",
    False: "The program is linked with the C library dynamically.",
}


def write(path: Path, text: str) -> None:
    """Writes a text file, and its folders."""
    path.parent.mkdir(parents=True, exist_ok=True)
    path.write_text(text, encoding="utf-8")


def compress(path: Path, text: str) -> None:
    """Writes a compressed text file, the same bytes each time."""
    path.parent.mkdir(parents=True, exist_ok=True)
    path.write_bytes(gzip.compress(text.encode(), mtime=0))


def copy_folders(tree: Path) -> None:
    """Copies the folders of the repository that belong to a release."""
    for folder in FOLDERS:
        shutil.copytree(TOP / folder, tree / folder, ignore=shutil.ignore_patterns("__pycache__", ".mypy_cache"))
    (tree / "schemas").mkdir()
    for name in SCHEMAS:
        shutil.copy(TOP / f"docs/{name}.schema.json", tree / "schemas")


def of_archive(tree: Path, program: Path, pages: dict[str, str], completions: dict[str, str]) -> None:
    """Fills the folder that the archive has."""
    copy_folders(tree)
    shutil.copy(program, tree / NAME)
    for name in ("README.md", "CHANGELOG.md", *LICENCES):
        shutil.copy(TOP / name, tree)
    for name, text in pages.items():
        write(tree / "man/man1" / name, text)
    for name, text in completions.items():
        write(tree / "completions" / name, text)


def of_package(tree: Path, program: Path, pages: dict[str, str], completions: dict[str, str]) -> None:
    """Fills the file tree of the package."""
    share = tree / "usr/share"
    (tree / "usr/bin").mkdir(parents=True)
    shutil.copy(program, tree / "usr/bin" / NAME)
    (share / PACKAGE).mkdir(parents=True)
    copy_folders(share / PACKAGE)
    # Recorders and examples look for the program beside their folders.
    (share / PACKAGE / NAME).symlink_to(f"../../bin/{NAME}")
    for name, text in pages.items():
        compress(share / "man/man1" / f"{name}.gz", text)
    for name, text in completions.items():
        write(share / COMPLETIONS[name], text)


def indented(text: str) -> str:
    """A licence as the field of a copyright file has it."""
    return "\n".join(f" {line}" if line else " ." for line in text.strip().splitlines())


def documents(tree: Path, is_static: bool) -> None:
    """Writes the package's documents: copyright, changelog and README."""
    folder, mit = tree / "usr/share/doc" / PACKAGE, (TOP / "LICENSE-MIT").read_text(encoding="utf-8")
    write(folder / "copyright", COPYRIGHT.format(linked=LINKED[is_static], mit=indented(mit)))
    shutil.copy(TOP / "README.md", folder)
    compress(folder / "changelog.gz", (TOP / "CHANGELOG.md").read_text(encoding="utf-8"))


def control(tree: Path, version: str, is_static: bool) -> None:
    """Writes the package's description, and the checksums of its files."""
    files = sorted(path for path in tree.rglob("*") if path.is_file() and not path.is_symlink())
    size = -(-sum(path.stat().st_size for path in files) // 1024)
    depends = ", ".join(["python3 (>= 3.11)", *["libc6 (>= 2.34)"] * (not is_static)])
    sums = [f"{hashlib.md5(path.read_bytes()).hexdigest()}  {path.relative_to(tree)}\n" for path in files]
    write(tree / "DEBIAN/control", CONTROL.format(package=PACKAGE, version=version, size=size, depends=depends))
    write(tree / "DEBIAN/md5sums", "".join(sums))


def settle(tree: Path, seconds: int) -> None:
    """Gives each file of a tree the usual permissions and this time."""
    for path in [*tree.rglob("*"), tree]:
        if not path.is_symlink():
            path.chmod(0o755 if path.is_dir() or os.access(path, os.X_OK) else 0o644)
        os.utime(path, (seconds, seconds), follow_symlinks=False)


def owned(member: tarfile.TarInfo) -> tarfile.TarInfo:
    """A member of the archive, owned by root."""
    member.uid = member.gid = 0
    member.uname = member.gname = "root"
    return member


def pack_archive(tree: Path, out: Path, seconds: int) -> Path:
    """Packs the archive, whose only top folder is the tree's."""
    path = out / f"{tree.name}.tar.gz"
    with path.open("wb") as raw, gzip.GzipFile("", "wb", fileobj=raw, mtime=seconds) as packed:
        with tarfile.open(fileobj=cast(IO[bytes], packed), mode="w", format=tarfile.GNU_FORMAT) as archive:
            for member in [tree, *sorted(tree.rglob("*"))]:
                archive.add(member, member.relative_to(tree.parent), recursive=False, filter=owned)
    return path


def pack_package(tree: Path, out: Path, version: str, seconds: int) -> Path:
    """Packs the package."""
    path = out / f"{PACKAGE}_{version}_amd64.deb"
    words = ["dpkg-deb", "--root-owner-group", "-Zxz", "--build", str(tree), str(path)]
    subprocess.run(words, stdout=subprocess.DEVNULL, env=os.environ | {"SOURCE_DATE_EPOCH": str(seconds)}, check=True)
    return path


def sums(out: Path, files: list[Path]) -> None:
    """Writes the checksums of the files of a release."""
    lines = [f"{hashlib.sha256(path.read_bytes()).hexdigest()}  {path.name}\n" for path in files]
    write(out / "sha256sums", "".join(lines))
