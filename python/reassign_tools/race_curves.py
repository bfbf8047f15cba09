"""The pictures of a race over seconds, by median and quartiles: for each instance the share of the way that is left, or what the
lists cost."""
import math
from collections.abc import Iterable, Sequence

from .pictures import (ACROSS, BLACK, BLUE, FAINT, GREEN, GRID, ORANGE, PURPLE, SKY, Picture, Points, decades, grouped, log_ticks,
                       ticks)
from .race_plan import OWN
from .race_rows import Group, Row, groups_of
from .race_runs import Curve
from .texts import counted, percent

COLOURS = (BLUE, ORANGE, GREEN, PURPLE, SKY, BLACK)
DASHES = ("", "7 4", "2 3", "9 3 2 3")
STEPS, HEIGHT, GAP = 160, 260, 110
SHORTEST_SHARE = 0.001  # of the longest time, from where on times are drawn
SMALLEST_LEFT = 0.0001
STEEP = 3.0  # how many times the least of some costs the most may be on an axis that isn't logarithmic
ROOM = 0.05  # of an axis, beside what it shows
FINEST = 1e-9  # of the greatest number, by which the ends of an axis differ at least


def quantile(values: Sequence[float], part: float) -> float:
    """A quantile of sorted numbers, between two of which it may lie."""
    at = part * (len(values) - 1)
    low = int(at)
    high = min(low + 1, len(values) - 1)
    return values[low] + (values[high] - values[low]) * (at - low)


def styled(at: int) -> tuple[str, str]:
    """The colour and the dashes of a line by its number."""
    return COLOURS[at % len(COLOURS)], DASHES[at // len(COLOURS) % len(DASHES)]


class Line:
    """The runs of one solver and slack on one instance. Their values are shares of the way that are left, or costs."""

    def __init__(self, rows: Group, at: int, of_costs: bool) -> None:
        first = rows[0]
        self.of_costs = of_costs
        self.name = first.solver + (f", slack {first.slack}" if first.slack else "")
        self.way, self.bound = max(first.start - first.bound, 1), first.bound
        self.curves = [row.curve for row in rows if row.curve and row.feasible]
        self.ends = [(max(row.time(), 0.001), self.value(row.cost)) for row in rows if row.cost is not None]
        self.colour, self.dash = styled(at)

    def value(self, cost: float) -> float:
        return cost if self.of_costs else max((cost - self.bound) / self.way, SMALLEST_LEFT)

    def told(self, value: float) -> str:
        """A value in words."""
        return f"cost {grouped(round(value))}" if self.of_costs else f"{percent(value)} left"

    def longest(self) -> float:
        return max([end for end, _ in self.ends] + [curve[-1][0] for curve in self.curves], default=0)

    def at_end(self, part: float) -> float:
        return quantile(sorted(value for _, value in self.ends), part)

    def points(self, times: Sequence[float], part: float) -> Points:
        """A quantile of the curves at these times, from where on each of them has begun to fall."""
        begun = max(curve[1][0] if len(curve) > 1 else curve[0][0] for curve in self.curves)
        over = [walked(curve, times) for curve in self.curves]
        return [(time, quantile(sorted(self.value(costs[at]) for costs in over), part))
                for at, time in enumerate(times) if time >= begun]


def walked(curve: Curve, times: Iterable[float]) -> list[int]:
    """The cost of a curve at each of some times, which rise."""
    costs, at = [], 0
    for time in times:
        while at + 1 < len(curve) and curve[at + 1][0] <= time:
            at += 1
        costs.append(curve[at][1])
    return costs


class Scale:
    """Values from the bottom of a panel to its top."""

    def __init__(self, values: Iterable[float], of_costs: bool) -> None:
        known = list(values)
        low, high = min(known), max(known)
        self.of_costs, self.is_logarithmic = of_costs, not of_costs or high > STEEP * low > 0
        room = max(ROOM * (high - low), 1.0, FINEST * high)
        self.low, self.high = (low / (1 + ROOM), high * (1 + ROOM)) if self.is_logarithmic else (max(low - room, 0.0), high + room)

    def part(self, value: float) -> float:
        """At which part of the height a value stands."""
        if self.is_logarithmic:
            return math.log(value / self.low) / math.log(self.high / self.low)
        return (value - self.low) / (self.high - self.low)

    def marks(self) -> list[tuple[float, str]]:
        if not self.of_costs:
            return [(mark, f"{100 * mark:.6g} %") for mark in log_ticks(self.low, self.high)]
        marks = log_ticks(self.low, self.high) if self.is_logarithmic else ticks(math.ceil(self.low), math.floor(self.high))
        return [(mark, grouped(round(mark))) for mark in marks]


class Panel:
    """The lines of one instance, and the best-known cost."""

    def __init__(self, picture: Picture, lines: Sequence[Line], top: int, known: int | None) -> None:
        self.picture, self.lines, self.top = picture, lines, top
        self.known = None if known is None else lines[0].value(known)
        self.longest = max(line.longest() for line in lines)
        self.shortest = max(self.longest * SHORTEST_SHARE, 0.0001)
        width = math.log(self.longest / self.shortest)
        self.times = [self.shortest * math.exp(width * at / STEPS) for at in range(STEPS + 1)]
        values = [line.at_end(part) for line in lines if line.ends for part in (0, 1)]
        values += [value for line in lines if line.curves for part in (0.25, 0.75) for _, value in line.points(self.times, part)]
        self.scale = Scale(values if self.known is None else [*values, self.known], lines[0].of_costs)

    def across(self, time: float) -> float:
        part = math.log(max(time, self.shortest) / self.shortest) / math.log(self.longest / self.shortest)
        return self.picture.left + ACROSS * part

    def down(self, value: float) -> float:
        return self.top + HEIGHT * (1 - self.scale.part(value))

    def draw_frame(self) -> None:
        picture, left, bottom = self.picture, self.picture.left, self.top + HEIGHT
        for mark, words in self.scale.marks():
            picture.line(left, self.down(mark), left + ACROSS, self.down(mark), GRID)
            picture.text(left - 8, self.down(mark) + 4, words, "end", 12)
        for mark in decades(self.shortest, self.longest, (1, 2, 5)):
            picture.line(self.across(mark), bottom, self.across(mark), bottom + 5)
            picture.text(self.across(mark), bottom + 19, f"{mark:g}", "middle", 12)
        if self.known is not None:
            picture.line(left, self.down(self.known), left + ACROSS, self.down(self.known), FAINT, 1.5, "8 5")
        picture.line(left, self.top, left, bottom)
        picture.line(left, bottom, left + ACROSS, bottom)

    def placed(self, points: Points) -> Points:
        return [(self.across(time), self.down(value)) for time, value in points]

    def draw(self) -> None:
        self.draw_frame()
        for line in self.lines:
            if line.curves:
                low, high = (self.placed(line.points(self.times, part)) for part in (0.25, 0.75))
                self.picture.band(low, high, line.colour, 0.18)
        for line in self.lines:
            if line.curves:
                self.picture.path(self.placed(line.points(self.times, 0.5)), line.colour, 2, line.dash)
            elif line.ends:
                self.draw_end(line)
        self.draw_legend()

    def draw_end(self, line: Line) -> None:
        """What came of a solver whose curve nobody knows."""
        x = self.across(quantile(sorted(end for end, _ in line.ends), 0.5))
        self.picture.line(x, self.down(line.at_end(0.25)), x, self.down(line.at_end(0.75)), line.colour, 2)
        self.picture.dot(x, self.down(line.at_end(0.5)), 4, line.colour, line.colour)

    def draw_legend(self) -> None:
        x, y = self.picture.left + ACROSS + 20, self.top + 8
        for line in self.lines:
            if line.curves:
                self.picture.line(x, y, x + 24, y, line.colour, 2, line.dash)
            else:
                self.picture.dot(x + 12, y, 4, line.colour, line.colour)
            end = line.told(line.at_end(0.5)) if line.ends else "no feasible list"
            self.picture.text(x + 32, y + 4, line.name)
            self.picture.text(x + 32, y + 20, f"{end}, {counted(len(line.ends), 'run')}", size=12, colour=FAINT)
            y += 42
        if self.known is not None:
            self.picture.line(x, y, x + 24, y, FAINT, 1.5, "8 5")
            self.picture.text(x + 32, y + 4, "best known")
            self.picture.text(x + 32, y + 20, self.lines[0].told(self.known), size=12, colour=FAINT)


def curves(rows: Sequence[Row]) -> bytes:
    """The picture of what is left."""
    return drawn(rows, False, "the share of the way from the start's cost to the bound that is left")


def costs(rows: Sequence[Row]) -> bytes:
    """The picture of what the lists cost."""
    return drawn(rows, True, "what the best lists cost over time")


def drawn(rows: Sequence[Row], of_costs: bool, title: str) -> bytes:
    """A picture of the runs with the greatest budget of each instance."""
    instances: dict[str, list[Group]] = {}
    for group in groups_of(rows).values():
        instances.setdefault(group[0].instance, []).append(group)
    widest = max(len(grouped(row.start)) for row in rows) if of_costs else 0
    picture, top, solvers = Picture(max(84, 24 + 8 * widest)), 112, order_of(rows)
    for name, groups in instances.items():
        most = max(budget_of(group) for group in groups)
        lines = [Line(group, solvers[group[0].solver, group[0].slack], of_costs) for group in groups if budget_of(group) == most]
        picture.heading(top - 14, f"{name}, {groups[-1][0].budget()}{' proposals' if groups[-1][0].budget_proposals else ''}")
        if any(line.ends for line in lines):
            Panel(picture, lines, top, groups[0][0].known if of_costs else None).draw()
        top += HEIGHT + GAP
    is_timed = any(row.budget_proposals for row in rows)
    unit = "seconds of processor time, without reading" if is_timed else "seconds"
    picture.text(picture.left + ACROSS, top - GAP + 42, unit, "end")
    return picture.written(top - GAP + 60, title, "by median (line) and quartiles (band) of the runs").encode()


def budget_of(group: Group) -> tuple[int, float]:
    first = group[0]
    return first.budget_proposals or 0, (first.budget_seconds or 0.0) if not first.budget_proposals else 0.0


def order_of(rows: Iterable[Row]) -> dict[tuple[str, str], int]:
    keys = sorted({(row.solver, row.slack) for row in rows}, key=lambda key: (key[0] != OWN, key[0], len(key[1]), key[1]))
    return {key: at for at, key in enumerate(keys)}
