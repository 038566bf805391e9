"""The statically linked program, which needs nothing of the system that it runs on."""
import shutil
import subprocess
from pathlib import Path

C_LIBRARY = Path("/usr/lib/x86_64-linux-gnu")  # of Debian's libc6-dev
GCC = Path("/usr/lib/gcc/x86_64-linux-gnu")  # of Debian's libgcc-12-dev, in a folder for each version


class Unlinked(Exception):
    """Why the program can't be linked statically."""


def found(path: Path) -> Path:
    """The path of a file that must exist."""
    if not path.is_file():
        raise Unlinked(f"there is no {path}")
    return path


def gcc() -> Path:
    """The folder of GCC's newest library."""
    folders = [path.parent for path in GCC.glob("*/libgcc_eh.a")]
    if not folders:
        raise Unlinked(f"there is no {GCC}/*/libgcc_eh.a (Debian: package libgcc-12-dev)")
    return max(folders, key=lambda path: [int(part) for part in path.name.split(".")])


def link(made: Path, program: Path) -> None:
    """Links the object file that `./prove` left with the kit's and the system's archives."""
    rt = shutil.which("rt")
    if not rt:
        raise Unlinked("rt, whose kit has the linker, is not on the path")
    kit, library = Path(rt).resolve().parents[1], gcc()
    at = [found(C_LIBRARY / name) for name in ("rcrt1.o", "crti.o", "crtn.o", "libc.a")]
    words: list[str | Path] = [
        kit / "toolchain/bin/ld.lld",
        "-static",
        "-pie",
        "--no-dynamic-linker",
        "--gc-sections",
        "--strip-all",
    ]
    words += ["-z", "noexecstack", "-z", "relro", "-z", "now", "-o", program, at[0], at[1], library / "crtbeginS.o"]
    words += [found(made), kit / "c/libos_c.a", kit / "c/liblibc_c.a", "--start-group", at[3], library / "libgcc.a"]
    words += [library / "libgcc_eh.a", "--end-group", library / "crtendS.o", at[2]]
    ended = subprocess.run(words, capture_output=True, text=True, check=False)
    if ended.returncode:
        raise Unlinked(f"the linker failed: {ended.stderr.strip()}")
