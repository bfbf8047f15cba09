"""The picture of a run: costs over the places of the journal, and what came of each worker's entries."""
import math
from array import array
from collections.abc import Callable, Iterable, Sequence

from .pictures import ACROSS, BLUE, FAINT, GREY, GRID, ORANGE, PURPLE, SKY, Picture, Points, grouped, log_ticks, ticks, wide
from .run_reports import DONE, LATE, RunReport
from .texts import percent
from .words import shown

BARS = 160
Ints = Sequence[int]
Floats = Sequence[float]
Bar = tuple[float, float, int, int, int]  # from which place to which, and how many entries were done, late, and made
MOST_EMPTY = 0.1  # of a worker's strip


class Axis:
    """Places from left to right. On a logarithmic axis a place counts by its logarithm from a thousandth of the last on."""

    def __init__(self, left: float, last: int, is_early: bool) -> None:
        self.left, self.last, self.unit = left, max(last, 1), 0
        if is_early:
            self.unit = int(10 ** max(0, int(math.log10(self.last)) - 3))
            self.whole = math.log1p(self.last / self.unit)

    def at(self, place: float) -> float:
        part = math.log1p(place / self.unit) / self.whole if self.unit else place / self.last
        return self.left + ACROSS * part

    def place(self, part: float) -> float:
        """The place at a part of the width."""
        return self.unit * math.expm1(part * self.whole) if self.unit else part * self.last

    def marks(self) -> tuple[list[int], list[int]]:
        """The places with a number, and those with a line alone."""
        if not self.unit:
            return list(ticks(0, self.last)), []
        numbered = [0]
        while (numbered[-1] or self.unit / 10) * 10 <= self.last:
            numbered.append(int((numbered[-1] or self.unit / 10) * 10 + 0.5))
        between = [times * one for one in numbered[1:] for times in (2, 3, 4, 5, 6, 7, 8, 9) if times * one <= self.last]
        return numbered, between


def is_early(report: RunReport, start: int | None) -> bool:
    """Whether more than half of the fall comes in the first tenth of a long journal."""
    if len(report.marks) < 200 or not report.costs:
        return False
    half = ((report.costs[0] if start is None else start) + report.least) / 2
    first = next((place for place, cost in zip(report.places, report.costs) if cost <= half), None)
    return first is not None and first < len(report.marks) / 10


def thinned(axis: Axis, down: Callable[[float], float], first: tuple[float, float], places: Ints, costs: Floats) -> Points:
    """The points of a line that changes at these places: if many lie side by side, the highest and the lowest."""
    points: Points = []
    column, low, high, last = None, 0.0, 0.0, down(first[1])
    points.append((axis.at(first[0]), last))
    x = points[0][0]
    for place, cost in zip(places, costs):
        at, y = axis.at(place), down(cost)
        if int(2 * at) != column:
            if column is not None:
                points += [(x, low), (x, high), (x, last)] if low != high else [(x, last)]
            column, x = int(2 * at), at
            points.append((x, last))
            low = high = y
        else:
            low, high = min(low, y), max(high, y)
        last = y
    points += [(x, low), (x, high), (x, last)] if column is not None else []
    points.append((axis.left + ACROSS, last))
    return points


def leasts(start: float | None, places: Ints, costs: Floats) -> "tuple[array[int], array[float]]":
    """Where the least cost falls, and to what."""
    least, at, fallen = start, array("I"), array("d")
    for place, cost in zip(places, costs):
        if least is None or cost < least:
            least = cost
            at.append(place)
            fallen.append(cost)
    return at, fallen


class CostPanel:
    """The costs of a run over its places. `down` says how far down the picture a cost stands."""

    def __init__(self, picture: Picture, report: RunReport, start: int | None, axis: Axis, top: int, height: int) -> None:
        self.picture, self.report, self.start, self.axis, self.top, self.height = picture, report, start, axis, top, height
        self.end = picture.left + ACROSS

    def draw_frame(self, heading: str, ticks_down: Iterable[tuple[float, str]], has_numbers: bool) -> None:
        picture, axis, bottom = self.picture, self.axis, self.top + self.height
        picture.heading(self.top - 14, heading)
        for y, words in ticks_down:
            picture.line(picture.left, y, self.end, y, GRID)
            picture.text(picture.left - 8, y + 4, words, "end", 12)
        numbered, between = axis.marks()
        for mark in numbered:
            picture.line(axis.at(mark), bottom, axis.at(mark), bottom + 6)
            if has_numbers:
                picture.text(axis.at(mark), bottom + 20, grouped(mark), "middle", 12)
        for mark in between:
            picture.line(axis.at(mark), bottom, axis.at(mark), bottom + 3)
        if has_numbers:
            scale = ", on a logarithmic axis" if axis.unit else ""
            picture.text(self.end, bottom + 40, f"place in the journal{scale}", "end")
        picture.line(picture.left, self.top, picture.left, bottom)
        picture.line(picture.left, bottom, self.end, bottom)

    def draw_lines(self, down: Callable[[float], float]) -> None:
        report, start = self.report, self.start
        places, costs = report.places, report.costs
        first = (0, start) if start is not None else (places[0], costs[0]) if places else (0, report.least)
        self.picture.path(thinned(self.axis, down, first, *leasts(start, places, costs)), SKY, 6)
        self.picture.path(thinned(self.axis, down, first, places, costs), BLUE, 1.5)

    def draw_costs(self) -> None:
        """The costs themselves, with the bound."""
        picture, low, high = self.picture, *self.ends()
        room = max(high - low, 1) // 20 + 1
        low, high = max(low - room, 0), high + room

        def down(cost: float) -> float:
            return self.top + self.height * (high - cost) / (high - low)
        self.draw_frame("cost", [(down(mark), grouped(mark)) for mark in ticks(low, high)], False)
        picture.line(picture.left, down(self.report.bound), self.end, down(self.report.bound), ORANGE, 2, "8 5")
        self.draw_lines(down)

    def ends(self) -> tuple[int, int]:
        """The least and the greatest cost that is drawn."""
        report = self.report
        known = [report.bound, report.least, *([] if self.start is None else [self.start])]
        known += [int(max(report.costs, default=report.least)), int(min(report.costs, default=report.least))]
        return min(known), max(known)

    def draw_distances(self) -> None:
        """How far above the bound the costs are, on a logarithmic axis, which shows the end of a long fall."""
        bound = self.report.bound
        high = max(self.ends()[1] - bound, 1) * 1.1
        nearest = min((cost for cost in (*self.report.costs, self.report.least) if cost > bound), default=bound + 1) - bound
        low = nearest / (1.1 if self.report.least > bound else 2)  # at the bound itself it stands on the axis

        def down(cost: float) -> float:
            return self.top + self.height * math.log(high / max(cost - bound, low)) / math.log(high / low)
        marks = [(down(bound + mark), f"{mark:,.15g}") for mark in log_ticks(low, high)]
        self.draw_frame("cost above the lower bound, on a logarithmic axis", marks, True)
        self.draw_lines(down)

    def draw_legend(self) -> None:
        picture, report, start, x = self.picture, self.report, self.start, self.end + 48
        legend = [("cost", BLUE, 1.5, "start: not told" if start is None else f"start {grouped(start)}"),
                  ("least so far", SKY, 6, f"least {grouped(report.least)}"),
                  ("lower bound", ORANGE, 2, grouped(report.bound))]
        for row, (name, colour, width, value) in enumerate(legend):
            y = self.top + 10 + 44 * row
            picture.line(self.end + 14, y, self.end + 40, y, colour, width, "8 5" if colour == ORANGE else "")
            picture.text(x, y + 4, name)
            picture.text(x, y + 21, value, size=12)
        lines: tuple[str, ...] = ()
        if start is None:
            lines = "the report does not tell", "what the start costs:", "--run with the model", "and the start does"
        elif start > report.bound:
            part = (report.least - report.bound) / (start - report.bound)
            lines = f"{percent(part)} of the way from", "start to bound is left"
        for row, words in enumerate(lines):
            picture.text(x, self.top + 146 + 16 * row, words, size=12)


def bars_of(report: RunReport, axis: Axis) -> list[list[Bar]]:
    """For each worker its bars: from place to place, how many of its entries there are done, planned earlier, and made."""
    marks, count = report.marks, len(report.marks)
    edges = sorted({min(count, round(axis.place(bar / BARS))) for bar in range(BARS + 1)} | {0, count})
    rows = []
    for worker in range(report.workers):
        bars: list[Bar] = []
        for one, two in zip(edges, edges[1:]):
            part = bytes(marks[one:two])
            done, late, both, neither = (part.count(worker | flags) for flags in (DONE, LATE, DONE | LATE, 0))
            bars.append((one, two, done + both, late + both, done + late + both + neither))
        rows.append(bars)
    return rows


def axis_of(left: float, report: RunReport, start: int | None) -> Axis:
    """The axis of places: logarithmic if most of the fall comes early, unless that leaves much of a worker's strip empty."""
    linear = Axis(left, len(report.marks), False)
    if not is_early(report, start):
        return linear
    early = Axis(left, len(report.marks), True)

    def empty(bars: Iterable[Bar]) -> float:
        return sum(axis_width(early, bar) for bar in bars if not bar[4]) / ACROSS
    return linear if any(empty(bars) > MOST_EMPTY for bars in bars_of(report, early)) else early


def axis_width(axis: Axis, bar: Bar) -> float:
    return axis.at(bar[1]) - axis.at(bar[0])


def draw_workers(picture: Picture, report: RunReport, axis: Axis, top: int) -> int:
    """A strip of bars for each worker, and its sums beside it. Answers where the last strip ends."""
    left, end = picture.left, picture.left + ACROSS
    late_any = any(mark & LATE for mark in set(report.marks))
    rows = bars_of(report, axis)
    # A few bars of few entries may be much higher than all others.
    parts = sorted(late / made for bars in rows for _, _, _, late, made in bars if late)
    most = parts[int(0.9 * len(parts))] if len(parts) > 20 else max(parts, default=0)
    scale = next(step for step in (0.01, 0.02, 0.05, 0.1, 0.2, 0.5, 1) if step >= most)
    more = " or more" if parts and parts[-1] > scale else ""
    picture.heading(top - 34, "what came of each worker's entries")
    x: float = left
    legend = [("done", BLUE), ("refused", GREY)]
    legend += [(f"planned at an earlier state (lower strip: its full height is {100 * scale:.0f} %{more})", PURPLE)] * late_any
    for name, colour in legend:
        picture.bar(x, top - 22, 11, 11, colour)
        picture.text(x + 16, top - 12, name, size=12)
        x += 36 + wide(name, 12)
    upper, lower = 32, 14 if late_any else 0
    step = upper + lower + 18
    for worker, bars in enumerate(rows):
        base = top + worker * step + upper
        for one, two, done, late, made in bars:
            if made:
                x, width = axis.at(one), axis.at(two) - axis.at(one)
                width -= 0.5 if width > 2 else 0
                picture.bar(x, base - upper, width, upper * (1 - done / made), GREY)
                picture.bar(x, base - upper * done / made, width, upper * done / made, BLUE)
                part = min(1, late / made / scale)
                picture.bar(x, base + 2 + lower * (1 - part), width, lower * part, PURPLE)
        picture.line(left, base, end, base)
        if late_any:
            picture.line(left, base + 2 + lower, end, base + 2 + lower, FAINT)
        picture.text(left - 8, base - upper / 2 + 5, f"worker {worker}", "end", 12)
        done, late, made = sum(bar[2] for bar in bars), sum(bar[3] for bar in bars), sum(bar[4] for bar in bars)
        picture.text(end + 14, base - upper / 2 - 4, f"{grouped(done)} done", size=12)
        picture.text(end + 14, base - upper / 2 + 11, f"{grouped(made - done)} refused", size=12)
        if late_any:
            picture.text(end + 14, base - upper / 2 + 26, f"{percent(late / made if made else 0)} planned earlier", size=12)
    return top + report.workers * step


def draw_run(report: RunReport, start_cost: int | None, command: str, title: str | None = None) -> str:
    start = report.start if start_cost is None else start_cost
    longest = max(len(grouped(number)) for number in (report.bound, report.least, start or 0, int(max(report.costs, default=0))))
    picture = Picture(max(88, 24 + 8 * longest))
    axis = axis_of(picture.left, report, start)
    costs = CostPanel(picture, report, start, axis, 90, 240)
    costs.draw_costs()
    costs.draw_legend()
    CostPanel(picture, report, start, axis, 390, 150).draw_distances()
    end = draw_workers(picture, report, axis, 640) if report.marks else 600
    count, workers = len(report.marks), report.workers
    if title is None:
        entries = "entry" if count == 1 else "entries"
        title = f"{shown(report.name)}: {grouped(count)} {entries} of {workers} worker{'s' * (workers > 1)}"
    return picture.written(end + 4, title, command)
