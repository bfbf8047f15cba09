"""The picture of the machines: how much of each capacity is in use, before and after."""
from collections.abc import Callable, Sequence

from .machine_uses import ResourceUse, percents
from .pictures import ACROSS, BLACK, BLUE, FAINT, GREEN, GRID, MIDDLE, ORANGE, PALE, PALE_GREEN, Picture, Points, cut, grouped, wide
from .words import shown

MOST_DOTS = 120  # machines that are drawn as dots joined by lines
MOST_SINGLE = 600  # machines that are drawn one by one
GROUP, MOST_GROUPS = 20, 100  # more are drawn in groups of at least so many, of which there are at most so many
MOST_ABREAST = 50  # names that may stand side by side
NARROWEST = 7  # what an upright name wants of an axis
LONGEST_NAME = 120  # of an upright one
MOST_FULL = 5  # of the fullest machines that are named if there is no room for all names
FULL_SIZE, FULL_HEIGHT = 11, 32  # of the lines that name them
ONE_COLUMN = 4  # resources; more stand in two columns
HEIGHT, STEP, BESIDE, NARROW = 170, 236, 96, 500
Floats = Sequence[float]
Shape = Callable[[float], None]  # draws something so far down


class Groups:
    """Machines in the order of their use at the start, in groups of nearly one size."""

    def __init__(self, order: Sequence[int]) -> None:
        self.count = min(MOST_GROUPS, len(order) // GROUP)
        self.members = [order[at * len(order) // self.count:(at + 1) * len(order) // self.count] for at in range(self.count)]

    def size(self) -> int:
        return round(sum(map(len, self.members)) / self.count)

    def parts(self, values: Floats, part: float) -> list[float]:
        """Of each group the value below which such a part of it is, counted from its end if the part is above a half."""
        chosen = []
        for group in self.members:
            ordered = sorted(values[machine] for machine in group)
            out = int((1 - part if part > 0.5 else part) * len(ordered))
            chosen.append(ordered[-1 - out] if part > 0.5 else ordered[min(out, len(ordered) - 1)])
        return chosen


class MachineNames:
    """How the machines' names stand under an axis: side by side, or upright if there isn't room for that. If there is no room at
    all, and it is asked for, the fullest machines are named alone."""

    def __init__(self, names: Sequence[str], width: int, tells_fullest: bool) -> None:
        count, self.names = len(names), names
        self.size = 11 if count <= 30 else 8 if count <= MOST_ABREAST else 6.5
        self.are_shown = count <= MOST_ABREAST or NARROWEST * count <= width
        self.tells_fullest = tells_fullest and not self.are_shown
        is_tight = count > MOST_ABREAST or max(wide(name, self.size) for name in names) > 1.4 * width / count
        self.are_upright = self.are_shown and is_tight
        self.shown = [cut(name, self.size, LONGEST_NAME) for name in names] if self.are_upright else names

    def height(self) -> int:
        """How much more room they need than names side by side."""
        if self.are_upright:
            return round(max(wide(name, self.size) for name in self.shown)) - 10
        return FULL_HEIGHT if self.tells_fullest else 0

    def fullest(self, when: str, shares: Floats, width: float) -> str:
        """A line that names the fullest machines, as many as there is room for."""
        line = f"fullest {when}:"
        for at, machine in enumerate(sorted(range(len(shares)), key=lambda machine: (-shares[machine], machine))[:MOST_FULL]):
            longer = f"{line}{',' * (at > 0)} {self.names[machine]} {percents(shares[machine])}"
            if at and wide(longer, FULL_SIZE) > width:
                break
            line = longer
        return cut(line, FULL_SIZE, width)


class Panel:
    """The use of each machine of one resource."""

    def __init__(self, picture: Picture, use: ResourceUse, names: MachineNames, left: float, top: int, width: int) -> None:
        self.picture, self.use, self.names = picture, use, names
        self.before, self.after, self.safety = map(use.shares, (use.before, use.after, use.safety))
        self.order = sorted(range(len(use.capacity)), key=lambda machine: (self.before[machine], machine))
        self.left, self.top, self.width = left, top, width
        self.high: float = 1.05 * max(1.0, max(self.before), max(self.after))

    def draw(self) -> None:
        self.draw_frame()
        if len(self.order) <= MOST_DOTS:
            self.draw_dots()
        elif len(self.order) <= MOST_SINGLE:
            self.draw_single()
        else:
            self.draw_groups(Groups(self.order))
        if len(self.order) > MOST_DOTS:
            self.draw_ends()
        if self.names.tells_fullest:
            self.draw_fullest()

    def down(self, part: float) -> float:
        return self.top + HEIGHT * (1 - min(part, self.high) / self.high)

    def across(self, at: int, count: int) -> float:
        return self.left + self.width * (at + 0.5) / count

    def draw_frame(self) -> None:
        picture, left, end, bottom = self.picture, self.left, self.left + self.width, self.top + HEIGHT
        picture.text(left, self.top - 10, self.use.name, size=15, weight="bold")
        for mark in (0, 25, 50, 75, 100):
            y = self.down(mark / 100)
            picture.line(left, y, end, y, ORANGE if mark == 100 else GRID, 2 if mark == 100 else 1)
            picture.text(left - 8, y + 4, f"{mark} %", "end", 12)
        picture.line(left, self.top, left, bottom)
        picture.line(left, bottom, end, bottom)

    def draw_dots(self) -> None:
        picture, count = self.picture, len(self.order)
        radius = min(4, max(1.8, 0.4 * self.width / count))
        for at, machine in enumerate(self.order):
            x = self.across(at, count)
            picture.line(x, self.down(self.before[machine]), x, self.down(self.after[machine]), "#D0D0D0", 1.5)
        for at, machine in enumerate(self.order):
            x, y = self.across(at, count), self.down(self.safety[machine])
            picture.line(x - radius - 1, y, x + radius + 1, y, GREEN, 2)
        for at, machine in enumerate(self.order):
            x = self.across(at, count)
            picture.dot(x, self.down(self.before[machine]), radius, "white", FAINT)
            picture.dot(x, self.down(self.after[machine]), max(radius - 0.7, 1.2), BLUE, BLUE)
        self.draw_names()

    def draw_names(self) -> None:
        """The machines under the axis, if they aren't too many."""
        names, count = self.names, len(self.order)
        for at, machine in enumerate(self.order if names.are_shown else []):
            x, y, name = self.across(at, count), self.top + HEIGHT + 14, names.shown[machine]
            if names.are_upright:
                self.picture.text(x + names.size / 3, y - 6, name, "end", names.size, upright=True)
            else:
                self.picture.text(x, y, name, "middle", names.size)

    def draw_single(self) -> None:
        """A bar for each machine after, and lines through all of them for what is before, and for safety."""
        count = len(self.order)
        width = self.width / count
        for at, machine in enumerate(self.order):
            y = self.down(self.after[machine])
            self.picture.bar(self.left + at * width, y, width, self.top + HEIGHT - y, MIDDLE)

        def steps(values: Floats) -> Points:
            return [(self.left + (at + side) * width, self.down(values[machine]))
                    for at, machine in enumerate(self.order) for side in (0, 1)]
        self.picture.path(steps(self.before), BLACK, 1.5)
        self.picture.path(steps(self.safety), GREEN, 1.5)

    def draw_groups(self, groups: Groups) -> None:
        def points(values: Floats, part: float) -> Points:
            return [(self.across(at, groups.count), self.down(value)) for at, value in enumerate(groups.parts(values, part))]
        picture = self.picture
        picture.band(points(self.after, 0), points(self.after, 1), PALE)
        picture.band(points(self.after, 0.1), points(self.after, 0.9), MIDDLE)
        if points(self.safety, 0) != points(self.safety, 1):
            picture.band(points(self.safety, 0.1), points(self.safety, 0.9), PALE_GREEN)
        picture.path(points(self.after, 0.5), BLUE, 4)
        picture.path(points(self.before, 0.5), BLACK, 1.5, "2 3")
        picture.path(points(self.safety, 0.5), GREEN, 1.5)  # on top, so that it is seen where the middle stands on it

    def draw_ends(self) -> None:
        """How many machines there are, under the axis."""
        count = len(self.order)
        for at in (0, count // 4, count // 2, 3 * count // 4, count):
            x, y = self.left + self.width * at / count, self.top + HEIGHT
            self.picture.line(x, y, x, y + 5)
            self.picture.text(x, y + 18, grouped(at), "middle", 11)

    def draw_fullest(self) -> None:
        """The names of the fullest machines, below the axis."""
        for at, (when, shares) in enumerate((("before", self.before), ("after", self.after))):
            line = self.names.fullest(when, shares, self.width)
            self.picture.text(self.left, self.top + HEIGHT + 36 + 15 * at, line, size=FULL_SIZE)


def draw_legend(picture: Picture, x: float, y: float, count: int, names: MachineNames) -> float:
    """What the colours mean, one below the other. Answers where it ends."""
    rows: list[tuple[Shape, str]] = []
    if count <= MOST_DOTS:
        rows += [(lambda y: picture.dot(x + 8, y, 4, "white", FAINT), "before"),
                 (lambda y: picture.dot(x + 8, y, 3.3, BLUE, BLUE), "after")]
    elif count <= MOST_SINGLE:
        rows += [(line_of(picture, x, BLACK, 1.5), "before"), (bar_of(picture, x, MIDDLE), "after, a bar for each machine")]
    else:
        rows += [(line_of(picture, x, BLACK, 1.5, "2 3"), "before, the middle of a group"),
                 (line_of(picture, x, BLUE, 4), "after, the middle of a group"),
                 (bar_of(picture, x, MIDDLE), "after, eight in ten of a group"),
                 (bar_of(picture, x, PALE), "after, all of a group")]
    middle = ", the middle of a group" if count > MOST_SINGLE else ""
    rows += [(line_of(picture, x, GREEN, 2), f"safety capacity{middle}"), (line_of(picture, x, ORANGE, 2), "capacity")]
    for at, (shape, words) in enumerate(rows):
        shape(y + 24 * at)
        picture.text(x + 26, y + 4 + 24 * at, words)
    if names.tells_fullest:
        picture.text(x, y + 4 + 24 * len(rows), "named: the fullest machines")
    return y + 24 * max(6, len(rows) + names.tells_fullest)


def line_of(picture: Picture, x: float, colour: str, width: float, dash: str = "") -> Shape:
    return lambda y: picture.line(x, y, x + 18, y, colour, width, dash)


def bar_of(picture: Picture, x: float, colour: str) -> Shape:
    return lambda y: picture.bar(x, y - 7, 18, 14, colour)


def draw_machines(uses: Sequence[ResourceUse], machine_names: Sequence[str], title: str, command: str,
                  tells_fullest: bool = False) -> str:
    """The picture of the machines, a panel for each resource. If there is no room for their names, the fullest may be told."""
    picture, count = Picture(80), len(machine_names)
    columns = 1 if len(uses) <= ONE_COLUMN else 2
    width = ACROSS if columns == 1 else NARROW
    in_groups = ""
    if count > MOST_SINGLE:
        groups = Groups(list(range(count)))
        in_groups = f", in {groups.count} groups of {'about ' * (count % groups.count > 0)}{groups.size()}"
    picture.heading(76, f"use of each machine, as a part of its capacity; machines in the order of their use before{in_groups}")
    names = MachineNames(machine_names, width, tells_fullest)
    step = STEP + names.height()
    for at, use in enumerate(uses):
        left = picture.left + at % columns * (width + BESIDE)
        Panel(picture, use, names, left, 122 + step * (at // columns), width).draw()
    picture.right = max(picture.right, picture.left + columns * width + (columns - 1) * BESIDE + 16)
    end = draw_legend(picture, picture.left + columns * width + (columns - 1) * BESIDE + 24, 132, count, names)
    bottom = 122 + step * -(-len(uses) // columns) - 26
    return picture.written(max(bottom, end), title, command)


def title_of(name: str, count: int) -> str:
    return f"{shown(name)}: {grouped(count)} machines, before and after"
