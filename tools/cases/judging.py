"""What has to come of cases, and whether it comes."""
import os
import re
import subprocess
from concurrent.futures import ThreadPoolExecutor
from dataclasses import dataclass, field
from itertools import zip_longest

from .reading import FOLDER, Book, Case, Unread, split_lines
from .running import SECONDS, Came, run

TOLD = ("| ", "starts ", "finishes ", "sends ", "writes ", "and then ")
FRONT = re.compile(r"writes the first ([0-9]+) of the ([0-9]+) bytes of: (.*)")
BEHIND = "and then what was read behind its first line"


@dataclass
class Judged:
    """A case, or a heading, and what is wrong with it; nothing where all is well."""

    place: str
    name: str
    wrong: str | None = None


@dataclass
class Said:
    """What a file says has to come: the first line of it, and those behind it."""

    number: int
    head: str
    lines: list = field(default_factory=list)


def said_of(name):
    """What FILE.expected says, in its order."""
    said = []
    for number, line in enumerate((FOLDER / f"{name}.expected").read_text().split("\n"), 1):
        if line.startswith(TOLD) and said:
            said[-1].lines.append(line)
        elif line:
            said.append(Said(number, line))
    return said


def wanted(case, said, texts):
    """What has to come of a case. Its text is added to those of the file's cases before it."""
    want = Came(int(said.head.removeprefix(f"{case.name} => ")))
    for line in said.lines:
        front = FRONT.fullmatch(line)
        if front and int(front[2]) == len(texts.get(front[3], b"")):
            want.text += texts[front[3]][: int(front[1])]
        elif line == BEHIND:
            want.text += split_lines(case.text, 1)[1]
        elif line.startswith("| "):
            want.text += line[2:].removesuffix("\\").encode() + b"\n" * (not line.endswith("\\"))
        else:
            want.told.append(line)
    texts[case.name] = want.text
    return want


def head_of(part):
    """A heading, the name of a case, or the first line of what is said."""
    match part:
        case Case():
            return part.name
        case Said():
            return part.head
    return part


def paired(book, name):
    """Each case of a file with what has to come of it. Where the two files part, a fault stands in their place."""
    texts, parts = {}, Said(0, "nothing more")
    for case, said in zip_longest(book.cases(name), said_of(name), fillvalue=parts):
        if isinstance(case, Case) and re.fullmatch(re.escape(case.name) + " => [0-9]+", said.head):
            yield case, wanted(case, said, texts)
        elif isinstance(case, Case) or case != said.head:
            yield Judged(f"cases/{name}.expected:{said.number}", said.head, f"wanted {head_of(case)}"), None
            return


def differing(want, came):
    """Where two texts or lists of lines differ first."""
    for number in range(max(len(want), len(came))):
        lines = [side[number] if number < len(side) else "(nothing)" for side in (want, came)]
        if lines[0] != lines[1]:
            return f"line {number + 1}: wanted {lines[0]}, got {lines[1]}"
    return None


def base_text(text):
    return text.decode(errors="backslashreplace").split("\n")


def judge(program, case, want):
    """Runs a case, and compares what comes with what has to."""
    try:
        came = run(program, case)
    except subprocess.TimeoutExpired:
        return Judged(case.place, case.name, f"no end in {SECONDS} s")
    except OSError as error:
        return Judged(case.place, case.name, f"not run: {error}")
    wrong = differing(want.told, came.told) or differing(base_text(want.text), base_text(came.text))
    if came.status != want.status:
        wrong = f"status {came.status}, wanted {want.status}" + (f"; {wrong}" if wrong else "")
    return Judged(case.place, case.name, wrong)


def judged(program, chosen):
    """The cases of these files, in order, with what is wrong with each. They run side by side on the processors."""
    try:
        book = Book()
        pairs = [pair for name in chosen for pair in paired(book, name)]
    except Unread as unread:
        return [Judged(*unread.args, "not understood")]
    with ThreadPoolExecutor(os.cpu_count()) as pool:
        return list(pool.map(lambda pair: pair[0] if pair[1] is None else judge(program, *pair), pairs))
