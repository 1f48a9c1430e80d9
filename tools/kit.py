"""What the tools know of the toolchain: the crates of crates.txt, and how `rattle` is called over the libraries that `rt ci` left."""
import os
import shutil
import sys
from pathlib import Path

TOP = Path(__file__).resolve().parent.parent
KIT = Path(os.path.realpath(shutil.which("rt") or sys.exit(f"{Path(sys.argv[0]).name}: there is no rt"))).parent.parent


def libraries():
    """The libraries that each crate of crates.txt uses."""
    uses = {}
    for line in (TOP / "crates.txt").read_text().splitlines():
        head, _, rest = line.split("#")[0].partition(":")
        if head.strip():
            uses[head.split()[0]] = rest.split()
    return uses


def below(crate, uses):
    """The crates of the repository that a crate stands on, itself left out."""
    found = []
    for used in uses[crate]:
        if used in uses:
            found += [name for name in [*below(used, uses), used] if name not in found]
    return found


def library_of(crate, libs=TOP):
    """Where `rt ci` leaves the library of a crate."""
    return libs / f"crates/{crate}/out/rlib/{crate}.rlib"


def words(command, crate, folder, libs=TOP):
    """The call of `rattle check` or `rattle build` for a crate in this folder, over the libraries of a checkout."""
    uses = libraries()
    root = "src/main.rt" if (folder / "src/main.rt").is_file() else "src/lib.rt"
    call = [KIT / "bin/rattle", command, "--crate-name", crate, root, "-L", f"dependency={KIT}/rlibs"]
    for name in ["std", *(used for used in uses[crate] if used not in uses)]:
        call += ["--extern", f"{name}={KIT}/rlibs/{name}.rlib"]
    for name in below(crate, uses):
        library = library_of(name, libs)
        if not library.exists():
            sys.exit(f"{Path(sys.argv[0]).name}: no library of {name}: run `rt ci` first")
        call += ["-L", f"dependency={library.parent}"]
        if name in uses[crate]:
            call += ["--extern", f"{name}={library}"]
    call += ["--antt-project", f"{KIT}/rattle/logic/antt-project.json", "--logic-built", f"{KIT}/logic_built"]
    return [str(word) for word in [*call, "--links", f"{crate}="]]
