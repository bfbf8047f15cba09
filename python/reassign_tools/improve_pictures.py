"""The picture of searches by `improve`: what each leaves of the gap over its seconds, from the logs that they write."""
import json
from collections.abc import Iterator, Sequence
from itertools import pairwise

from .files import MOST_JSON, read_whole
from .pictures import ACROSS, Picture
from .problems import Problem
from .race_curves import GAP, HEIGHT, Line, Panel, styled


def is_log(name: str) -> bool:
    """Whether a file is a log of `improve`."""
    return read_whole(name, MOST_JSON, 9, lambda piece: piece[:1] == b"{")[:1] == b"{"


class Log(Line):
    """The line of one log. Calls that went on with one file stand one after another."""

    def __init__(self, name: str, at: int) -> None:
        self.name, self.of_costs, (self.colour, self.dash) = name, False, styled(at)
        points = list(self.read(read_whole(name, MOST_JSON, 9)))
        self.bound, start, _, _ = points[0]
        self.way, curve, passed = max(start - self.bound, 1), [(0.0, start)], 0.0
        for (*_, before, _), (*_, seconds, cost) in pairwise([points[0], *points]):
            passed += before if seconds < before else 0.0
            curve.append((passed + seconds, cost))
        self.curves, self.ends = [curve], [(max(curve[-1][0], 0.001), self.value(curve[-1][1]))]

    def read(self, text: bytes) -> Iterator[tuple[int, int, float, int]]:
        for number, line in enumerate(text.splitlines(), 1):
            try:
                whole = json.loads(line)
                point = whole["bound"], whole["start"], whole["seconds"], whole["cost"]
                if not all(isinstance(one, (int, float)) and 0 <= one < 1e40 for one in point):
                    raise ValueError
                yield point
            except (ValueError, KeyError, TypeError, RecursionError):
                raise Problem(f"{self.name}: line {number} is none of a log of `improve`", 9) from None


def draw_logs(names: Sequence[str], title: str | None, command: str) -> str:
    picture, top = Picture(84), 84
    Panel(picture, [Log(name, at) for at, name in enumerate(names)], top, None).draw()
    picture.text(picture.left + ACROSS, top + HEIGHT + 42, "seconds", "end")
    return picture.written(top + HEIGHT + GAP - 50, title or "What is left of the gap", command)
