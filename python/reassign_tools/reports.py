"""Reports of `reassign solve`: the one reader of them."""
import re
from collections.abc import Iterator
from contextlib import contextmanager
from typing import BinaryIO, NamedTuple

from .files import read_list
from .problems import Problem
from .program import COSTS, Costs, Program
from .words import MOST_LOTS, MOST_PROPOSALS

ENTRY = re.compile(rb"(\d{1,40}) (\d{1,40}) (\d{1,40}) (\d{1,40}) (shift|swap|chain)((?: \d{1,40}:\d{1,40}>\d{1,40}){1,3}) "
                   rb"(?:done (\d{1,40})|refused (\w+)((?: \d{1,40}){1,4}))\n")
STEP = re.compile(rb"(\d+):(\d+)>(\d+)")
HEAD = COSTS + ("bound", "best_at", "assignment", "draws")
STEPS = {b"shift": 1, b"swap": 2, b"chain": 3}

LONGEST_LINE = 600_012  # bytes of a line: the assignment has the longest one
LONGEST_ENTRY = 1_000
MOST_DIGITS = 40  # of a number in a report


def values_of(words: list[bytes]) -> list[int] | None:
    """The numbers of a line, of which the last one has the line's end; None if one is none."""
    words = [*words[:-1], words[-1].removesuffix(b"\n")]
    return list(map(int, words)) if all(word.isdigit() and len(word) <= MOST_DIGITS for word in words) else None


class ReportHead:
    """The ten lines before the journal of a report."""

    def __init__(self, name: str, lines: list[bytes]) -> None:
        self.name = name
        self.numbers: dict[str, int] = {}
        self.assignment: list[int] = []
        for at, (word, line) in enumerate(zip(HEAD, lines), 1):
            first, *rest = line.split(b" ")
            values = values_of(rest) if first == word.encode() and line.endswith(b"\n") and rest else None
            if values is None or word != "assignment" and len(values) > 1:
                raise Problem(self.told(at, line, f"no line `{word}`"), 9)
            if word == "assignment":
                self.assignment = values
            else:
                self.numbers[word] = values[0]
        if len(lines) < len(HEAD):
            raise Problem(f"{name}: line {len(lines) + 1}: the report is cut off, or is none", 9)
        self.costs = Costs(*(self.numbers[word] for word in COSTS))
        self.bound, self.best_at = self.numbers["bound"], self.numbers["best_at"]

    def told(self, at: int, line: bytes, what: str) -> str:
        cut = line and not line.endswith(b"\n")
        return f"{self.name}: line {at}: {'the report is cut off, or is none' if cut else what}"


class Entry(NamedTuple):
    """An entry of a journal. One that was done has the cost after it; one that was refused the cause, and its numbers."""

    worker: int
    is_late: bool  # whether it was planned at an earlier state
    steps: bytes
    cost: int | None
    cause: str
    numbers: bytes

    def moves(self) -> list[tuple[int, int, int]]:
        """Which processes go from where to where."""
        return [(int(process), int(left), int(entered)) for process, left, entered in STEP.findall(self.steps)]


class Report:
    """A report that is open: its head is read, and its entries come one by one. `places` counts those that came."""

    def __init__(self, name: str, lines: BinaryIO) -> None:
        self.name, self.lines, self.places = name, lines, 0
        self.head = ReportHead(name, [line for line in (lines.readline(LONGEST_LINE) for _ in HEAD) if line])
        self.made = [0] * MOST_LOTS  # by each worker

    def wrong(self, what: str, line: bytes = b"") -> Problem:
        """What is wrong with the entry that comes."""
        return Problem(self.head.told(len(HEAD) + 1 + self.places, line, what), 9)

    def entries(self) -> Iterator[Entry]:
        """The entries. Raises Problem with status 9 if one can't stand in its place, or there are too few."""
        head = self.head
        for line in iter(lambda: self.lines.readline(LONGEST_ENTRY), b""):
            entry = self.entry(line)
            if self.places + 1 == head.best_at and entry.cost != head.costs.cost:
                raise self.wrong(f"the state behind it should cost {head.costs.cost}")
            yield entry
            self.places += 1
        if self.places < head.best_at:
            raise self.wrong(f"the report is cut off: its best place is {head.best_at}")

    def entry(self, line: bytes) -> Entry:
        found = ENTRY.fullmatch(line)
        if not found or self.places >= MOST_PROPOSALS:
            raise self.wrong("no entry", line)
        place, at, k, planned, kind, steps, cost, cause, numbers = found.groups()
        if int(place) != self.places:
            raise self.wrong(f"entry {self.places} should stand here")
        worker = int(at)
        if worker >= MOST_LOTS:
            raise self.wrong("no worker")
        if int(k) != self.made[worker] or int(planned) > self.places or steps.count(b">") != STEPS[kind]:
            raise self.wrong("no entry that may stand here")
        self.made[worker] += 1
        return Entry(worker, int(planned) < self.places, steps, int(cost) if cost else None, (cause or b"").decode(), numbers)


@contextmanager
def opened(name: str) -> Iterator[Report]:
    """The report of a file. Raises Problem with status 3 if it can't be read, and 9 if it is none."""
    try:
        with open(name, "rb") as lines:
            yield Report(name, lines)
    except OSError as fault:
        raise Problem(f"{name}: {fault.strerror}") from None


def is_list(name: str) -> bool:
    """Whether a file begins like a list and not like a report."""
    try:
        with open(name, "rb") as file:
            return file.peek(4096).lstrip()[:1].isdigit()
    except OSError as fault:
        raise Problem(f"{name}: {fault.strerror}") from None


def read_placement(name: str) -> list[int]:
    """The machines of a file that is an assignment, or a report of `reassign solve`, of which the assignment is taken. Raises
    Problem with status 3 if it can't be read, 5 if it is no assignment, and 9 if it is no report."""
    try:
        with open(name, "rb") as lines:
            return Report(name, lines).head.assignment if lines.peek(5).startswith(b"cost ") else read_list(name)
    except OSError as fault:
        raise Problem(f"{name}: {fault.strerror}") from None


def solve(program: Program, *words: object, keep: str | None = None, limit: float | None = None) -> ReportHead | None:
    """Runs `reassign solve` with these words. Answers the head of its report, which goes to the file `keep` too, or None if it
    was ended after so many seconds as `limit`."""
    status, lines, _ = program.run("solve", *words, keep=keep, lines=len(HEAD), limit=limit)
    if status is None:
        return None
    try:
        return ReportHead(program.name, [f"{line}\n".encode() for line in lines])
    except Problem:
        raise program.no_program("prints no report") from None
