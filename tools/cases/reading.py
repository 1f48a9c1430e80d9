"""Reading cases: the blocks of the files, their texts, and the runs that they say."""
import re
from dataclasses import dataclass, field
from functools import cached_property
from pathlib import Path

FOLDER = Path(__file__).resolve().parent.parent.parent / "cases"
PART = re.compile(rb"\\(?:(n)|x([0-9a-f]{2})|\*([0-9]+)\(([^)]*)\)|)")


class Unread(Exception):
    """A line of a file that is none of the known ones: its place, and the line."""


@dataclass
class Child:
    """What the child of a rank writes, and its exit status; None where a signal ends it."""

    text: bytes
    status: int | None


@dataclass
class Case:
    """What the program is run on, and where a file says so."""

    name: str
    place: str
    words: list = field(default_factory=list)
    text: bytes = b""
    failing_read: int = 0
    takes: int | None = None
    children: list = field(default_factory=list)
    no_more_children: bool = False
    peer: int | None = None
    waits: bytes | None = None
    hosts: str = ""


@dataclass
class Block:
    """A block of a file: its first line as a word and a rest, and the lines behind it with their numbers."""

    file: str
    number: int
    word: str
    rest: str
    lines: list = field(default_factory=list)


def names():
    """The names of the files of cases."""
    return sorted(path.stem for path in FOLDER.glob("*.cases"))


def part_bytes(found):
    end, digits, count, unit = found.groups()
    if end:
        return b"\n"
    if digits:
        return bytes.fromhex(digits.decode())
    if count:
        return int(count) * unit
    raise ValueError(found.string)


def line_bytes(line):
    """The bytes of a line, with its end unless a `\\` stands there."""
    ended = not line.endswith("\\")
    return PART.sub(part_bytes, line.removesuffix("\\").encode()) + b"\n" * ended


def split_lines(text, count):
    """The first lines of a text, so many, and the others."""
    place = 0
    for _ in range(count):
        place = text.find(b"\n", place) + 1
        if place == 0:
            return text, b""
    return text[:place], text[place:]


def blocks_of(name):
    """The blocks of a file."""
    blocks = []
    for number, line in enumerate((FOLDER / f"{name}.cases").read_text().split("\n"), 1):
        word, _, rest = line.partition(" ")
        if word == "#":
            blocks.append(Block(name, number, "heading", line))
        elif word in ("text", "case", "rows"):
            blocks.append(Block(name, number, word, rest))
        elif line and blocks:
            blocks[-1].lines.append((number, line))
        elif line:
            raise Unread(f"cases/{name}.cases:{number}", line)
    return blocks


class Book:
    """All blocks of the files, and the texts of those that others name."""

    def __init__(self):
        self.blocks = {name: blocks_of(name) for name in names()}
        self.known = {}

    @cached_property
    def texts(self):
        """The blocks that are texts, by their names."""
        return {block.rest: block for blocks in self.blocks.values() for block in blocks if block.word == "text"}

    def text(self, name):
        """The bytes of a text."""
        if name not in self.known:
            block = self.texts[name]
            self.known[name] = self.case_of(block).text
        return self.known[name]

    def cases(self, name):
        """The headings of a file, as texts, and its cases."""
        for block in self.blocks[name]:
            if block.word == "heading":
                yield block.rest
            elif block.word == "case":
                yield self.case_of(block)
            elif block.word == "rows":
                yield f"rows {block.rest}"
                yield from self.rows_of(block)

    def case_of(self, block):
        """What the lines of a block say."""
        case = Case(block.rest, f"cases/{block.file}.cases:{block.number}")
        for number, line in block.lines:
            word, _, rest = line.partition(" ")
            try:
                self.add(case, word, rest)
            except (KeyError, ValueError) as error:
                raise Unread(f"cases/{block.file}.cases:{number}", line) from error
        return case

    def add(self, case, word, rest):
        """Adds what a line says."""
        first, _, second = rest.partition(" ")
        match word:
            case "|":
                case.text += line_bytes(rest)
            case "times":
                case.text += int(first) * line_bytes(second)
            case "use":
                case.text += self.text(rest)
            case "words":
                case.words = rest.split()
            case "fails" if first == "read":
                case.failing_read = int(second)
            case "takes":
                case.takes = int(rest)
            case "child":
                case.children.append(Child(self.text(second), None if first == "killed" else int(first)))
            case "no" if rest == "child":
                case.no_more_children = True
            case "peer":
                case.peer = int(rest)
            case "hosts":
                case.hosts = rest
            case "waits":
                case.waits = self.text(rest)
            case _:
                raise ValueError(word)

    def rows_of(self, block):
        """The cases of a table."""
        words, _, name = block.rest.partition(" of ")
        base = self.text(name)
        for number, line in block.lines:
            place, bar, text = line.partition(" | ")
            where = f"cases/{block.file}.cases:{number}"
            if not bar or not re.fullmatch(r"(front )?[0-9]+", place):
                raise Unread(where, line)
            yield Case(line, where, words.split(), row_text(base, place, text))


def row_text(base, place, line):
    """The text of a row: with its line in place of another, or behind the first ones."""
    if place.startswith("front "):
        return split_lines(base, int(place.removeprefix("front ")))[0] + line_bytes(line)
    front, rest = split_lines(base, int(place) - 1)
    return front + line_bytes(line) + split_lines(rest, 1)[1]
