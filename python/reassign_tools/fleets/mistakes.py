"""What is wrong in tables, all of it at once."""
import difflib
import os
import re
from collections import Counter
from collections.abc import Callable, Hashable, Iterable, Iterator
from dataclasses import dataclass, replace
from typing import TypeVar

from ..problems import ProblemWithLines
from ..texts import counted

MOST_COMPARED = 40_000_000  # pairs of letters that are compared to find names that were meant, which takes some seconds
MOST_TOLD = 20  # mistakes of a kind of which each gets its line
T = TypeVar("T")
NAMES_AND_NUMBERS = re.compile(r"'(?:[^'\\]|\\.)*'|\"(?:[^\"\\]|\\.)*\"|[0-9][0-9.,]*| \(is it .*?\?\)")


@dataclass(frozen=True, slots=True)
class Place:
    """Where something stands: a file, its line and its column, as far as they are known. Lines and columns count from 1. What is
    wrong with a folder has no file."""

    file: str
    line: int = 0
    column: int = 0
    heading: str = ""


@dataclass(frozen=True, slots=True)
class Mistake:
    """One mistake: its place, and what is wrong there."""

    place: Place
    text: str

    def __str__(self) -> str:
        place = self.place
        file = f"{place.file}{f':{place.line}' if place.line else ''}: " if place.file else ""
        heading = f" '{place.heading}'" if place.heading else ""
        column = f"; column {place.column}{heading}" if place.column else ""
        return f"{file}{self.text}{column}"

    def kind(self) -> tuple[str, int, str]:
        """What mistakes have in common that are told alike: their file, their column, and the text without names and numbers."""
        return self.place.file, self.place.column, NAMES_AND_NUMBERS.sub("", self.text)

    def rest(self, count: int) -> str:
        """The line that stands for so many more mistakes of this kind."""
        return str(Mistake(replace(self.place, line=0), f"and {count:,} more of this kind"))


class FleetMistakes(ProblemWithLines):
    """Tables or settings that are no fleet. `mistakes` has all of them, in the order of files and lines; `lines` tells the first
    of each kind, and how many more there are."""

    def __init__(self, mistakes: list[Mistake], status: int = 4) -> None:
        super().__init__(list(cut_short(mistakes, Mistake.kind, str, Mistake.rest)),
                         f"{counted(len(mistakes), 'mistake')}, so nothing is written", status)
        self.mistakes = mistakes

    def within(self, folder: str) -> list[Mistake]:
        """The mistakes, whose files have their folder."""
        return [replace(one, place=replace(one.place, file=os.path.join(folder, one.place.file))) if one.place.file else one
                for one in self.mistakes]


def cut_short(items: Iterable[T], kind: Callable[[T], Hashable], line: Callable[[T], str], rest: Callable[[T, int], str]) -> Iterator[str]:
    """The lines of the first items of each kind, and then, if there are more, one line by `rest` of the last item and their
    count."""
    items = list(items)
    kinds = list(map(kind, items))
    counts = Counter(kinds)
    seen: Counter[Hashable] = Counter()
    for item, its_kind in zip(items, kinds):
        seen[its_kind] += 1
        if seen[its_kind] <= MOST_TOLD:
            yield line(item)
        if seen[its_kind] == MOST_TOLD < counts[its_kind]:
            yield rest(item, counts[its_kind] - MOST_TOLD)


class Mistakes:
    """Collects mistakes."""

    def __init__(self) -> None:
        self.found: list[Mistake] = []
        self.sought: dict[tuple[str, int], tuple[list[str], list[str]]] = {}
        self.status, self.compared = 4, 0

    def add(self, place: Place, text: str) -> None:
        self.found.append(Mistake(place, text))

    def unreadable(self, place: Place, text: str) -> None:
        """A file that can't be read, which has a status of its own."""
        self.status = 3
        self.add(place, text)

    def lines(self) -> list[str]:
        """What was found, of each kind the first, and how many more there are."""
        return list(cut_short(self.found, Mistake.kind, str, Mistake.rest))

    def close(self) -> None:
        """Raises FleetMistakes if there was one."""
        if self.found:
            files = {name: at for at, name in enumerate(dict.fromkeys(one.place.file for one in self.found))}
            self.found.sort(key=lambda one: (files[one.place.file], one.place.line, one.place.column))
            raise FleetMistakes(self.found, self.status)

    def nearest(self, name: str, names: list[str]) -> str:
        """The name that was meant, as a question to put after a mistake, or nothing."""
        near = self.near(name, names)
        return f" (is it {near!r}?)" if near else ""

    def near(self, name: str, names: list[str]) -> str:
        """The one of the names in a list that is nearest to a name, or nothing if none is near, or too many were compared."""
        key = name, id(names)
        if key not in self.sought:
            cost = len(names) * len(name)**2
            if self.compared + cost > MOST_COMPARED:
                return ""
            self.compared += cost
            # The names are kept too, so that no others get their id.
            self.sought[key] = difflib.get_close_matches(name, names, 1, 0.6), names
        near, _ = self.sought[key]
        return near[0] if near else ""
