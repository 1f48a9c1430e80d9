"""Which definitions a definition stands on: what a reader of a theorem's statement has to read.

A definition of crates/CRATE/specs names others, of its own file or of those that its lines `use` name; these name others
in turn. Types of the code, by `declared`, are enums, structs, traits and constants of src. What the kit has
(`Rattle.std`) isn't followed, nor what it makes of contracts (`contracts`, of rows of memory). A bound variable that has a
definition's name counts as that one, so what is told may be a little too much.
"""
import re
from dataclasses import dataclass, field
from functools import lru_cache
from pathlib import Path

CRATES = Path(__file__).resolve().parent.parent / "crates"
DECLARES = re.compile(r"(?:(?:abbrev|unfoldable|opaque|pub|record|data) )+([^\s:(){}]+)|([^\s:(){}]+) :")
USE = re.compile(r"(pub )?use (?:Rattle\.)?(\w+)\.specs\.([\w.]+?)(?:\.\{(.*)\})?(?: as (\w+))?$")
TYPE = (  # with its comments and attributes; the name goes in
    r"^((?:[ \t]*(?:///|#\[).*\n)*)(?:pub(?:\(crate\))? )?"
    r"(?:(?:enum|struct|trait) {0}\b[^{{;]*(?:;|\{{\n(?:.*\n)*?\}})|const {0}: [^;]*;)"
)
WORD = re.compile(r"[^\W\d][\w'-]*(?:\.[^\W\d][\w'-]*)*")


@dataclass
class Definition:
    """A definition with the comments before it, or a type of the code."""

    path: Path
    name: str
    lines: list = field(default_factory=list)

    def words(self):
        """The words of its terms, each with what it is a part of: `a.b` gives `a` and `a.b`."""
        text = "\n".join(line.split(" -- ")[0] for line in self.lines if not line.lstrip().startswith(("--", "//", "#[")))
        for word in set(WORD.findall(text)):
            parts = word.split(".")
            yield from (".".join(parts[:count]) for count in range(1, len(parts) + 1))
        yield from {f"◌{sign}◌" for sign in re.findall(r"(?<= )[^\w\s()\[\]{},;:]+(?= )", text)}

    def __hash__(self):
        return hash((self.path, self.name))


@dataclass
class File:
    """A file of definitions: what it defines, by each name, and what its lines `use` bring."""

    path: Path
    defined: dict = field(default_factory=dict)
    used: dict = field(default_factory=dict)  # by the name here: the crate, the path there, the name there
    given: dict = field(default_factory=dict)  # those of them that it gives on


# ---- files of definitions


def read_use(file, line):
    found = USE.match(line)
    if not found:
        return
    given, crate, path, names, alias = found.groups()
    if names is None:
        brought = {alias or path.split(".")[-1]: (crate, path, None)}
    else:
        pairs = [name.strip().split(" as ") for name in names.split(",") if name.strip()]
        brought = {pair[-1]: (crate, path, pair[0]) for pair in pairs}
    file.used |= brought
    if given:
        file.given |= brought


@lru_cache(None)
def read_file(path):
    file, comment, now = File(path), [], None
    for line in path.read_text().splitlines():
        head = DECLARES.match(line)
        if line.startswith("--"):
            comment = [] if line.startswith("-- ----") else [*comment, line]
        elif line.startswith(("use ", "pub use ", "pub mod ", "infix")) or not line.strip():
            read_use(file, line)
            comment = []
        elif head:
            name = head[1] or head[2]
            now = file.defined[name] = Definition(path, name, [*comment, line])
            comment = []
        elif now:
            now = file.defined.get(line.split(" ")[0], now)  # an equation of an earlier one
            now.lines += [*comment, line]
            comment = []
            if made := re.match(r"  (\S+) :", line):  # a constructor
                file.defined.setdefault(made[1], now)
    return file


@lru_cache(None)
def home(crate, path):
    """The crate that has what `crate` names so, and its path there: its own, or that of another one which it gives on."""
    first, _, rest = path.partition(".")
    lib = CRATES / crate / "specs/Lib.antt"
    if first == "declared" or (CRATES / crate / f"specs/{first}.antt").exists() or not lib.exists():
        return crate, path
    given = read_file(lib).given.get(first)
    return home(given[0], given[1] + (f".{rest}" if rest else "")) if given else (crate, path)


def file_at(crate, path):
    """The file of definitions at a path, and what of the path is behind it; no file where the code or the kit has it."""
    crate, path = home(crate, path)
    first, _, rest = path.partition(".")
    here = CRATES / crate / f"specs/{first}.antt"
    return (read_file(here), rest) if here.exists() else (None, path)


def brought(crate, path, name):
    """What a name of a line `use` is: a definition, a type of the code, or None where the kit has it, or it is a file."""
    crate, path = home(crate, path)
    if path.startswith("declared."):
        kinds = [part for part in path.split(".") if part[0].isupper()]
        return type_of(crate, name if kinds[0] == "TheConstants" else kinds[0])
    file, rest = file_at(crate, path)
    wanted = rest.split(".")[0] or name
    if file and wanted in file.defined:
        return file.defined[wanted]
    return brought(*file.given[wanted]) if file and wanted in file.given else None


# ---- types of the code


@lru_cache(None)
def sources(crate):
    return {path: path.read_text() for path in sorted((CRATES / crate / "src").rglob("*.rt"))}


@lru_cache(None)
def type_of(crate, name):
    """An enum, a struct, a trait or a constant of a crate's code, or of the crate that it takes it from; else None."""
    if not (CRATES / crate).exists():
        return None
    for path, text in sources(crate).items():
        found = re.search(TYPE.format(name), text, re.M)
        if found:
            return Definition(path, name, found[0].splitlines())
    for text in sources(crate).values():
        for source, names in re.findall(r"^pub use (\w+)(?:::\w+)*::(\{[^}]*\}|\w+);", text, re.M):
            if re.search(rf"\b{name}\b", names) and source != "crate":
                return type_of(source, name)
    return None


def types_in(definition):
    """The types that a type of the code has in it."""
    crate = definition.path.relative_to(CRATES).parts[0]
    text = sources(crate)[definition.path]
    homes = {name: source for source, names in re.findall(r"^use (\w+)::([^;]*);", text, re.M) for name in re.findall(r"\w+", names)}
    for name in definition.words():
        home = homes.get(name, crate)
        yield type_of(crate if home == "crate" else home, name)


# ---- the closure


def named_by(definition):
    """The definitions that a definition names."""
    if definition.path.suffix == ".rt":
        yield from types_in(definition)
        return
    file = read_file(definition.path)
    for word in definition.words():
        alias, _, rest = word.partition(".")
        if word in file.defined:
            yield file.defined[word]
        elif word in file.used:
            yield brought(*file.used[word])
        elif rest and alias in file.used:  # of a file, or of a type's variants
            crate, path, _ = file.used[alias]
            yield brought(crate, path, rest)


def closure(definition):
    """All definitions that one stands on, itself among them."""
    found, rest = {definition}, [definition]
    while rest:
        for other in named_by(rest.pop()):
            if other and other not in found:
                found.add(other)
                rest.append(other)
    return found


@lru_cache(None)
def length(path):
    return path.read_bytes().count(b"\n")


def theorem(name):
    """The definition of this name; CRATE.NAME where several crates have one."""
    crate, _, short = name.rpartition(".")
    files = sorted(CRATES.glob(f"{crate or '*'}/specs/**/*.antt"))
    found = [one for one in (read_file(path).defined.get(short) for path in files) if one and one.name == short]
    if len(found) != 1:
        homes = ", ".join(str(one.path.relative_to(CRATES)) for one in found) or "no crate"
        raise ValueError(f"{name} stands in {homes}")
    return found[0]


def read_by(names):
    """What a reader of these definitions has to read: the lines of it, file by file."""
    lines = {}
    for definition in set().union(*(closure(theorem(name)) for name in names)):
        lines[definition.path] = lines.get(definition.path, 0) + len(definition.lines)
    return dict(sorted(lines.items()))


def figures(names):
    """How many files of definitions, how many lines of them, and how many lines of types of the code."""
    lines = read_by(names)
    specs = [count for path, count in lines.items() if path.suffix == ".antt"]
    return len(specs), sum(specs), sum(lines.values()) - sum(specs)


def imported(path):
    """All files of definitions that a file imports, itself among them, by whole files."""
    found, rest = {path}, [path]
    while rest:
        for crate, source, _ in read_file(rest.pop()).used.values():
            file, _ = file_at(crate, source)
            if file and file.path not in found:
                found.add(file.path)
                rest.append(file.path)
    return found
