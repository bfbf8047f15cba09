"""How full the machines are of each resource, before and after."""
from collections.abc import Container
from dataclasses import dataclass

from .models import Model
from .names import Names


@dataclass(frozen=True)
class ResourceSum:
    """How many machines are above their safety capacity of a resource, and the share that is used of the fullest one."""

    resource: str
    above_before: int
    above_after: int
    fullest_before: float
    fullest_after: float


@dataclass
class ResourceUse:
    """What the machines have and use of one resource: numbers by machine."""

    name: str
    capacity: list[int]
    safety: list[int]
    before: list[int]
    after: list[int]

    def shares(self, used: list[int]) -> list[float]:
        """What is used of each machine's capacity, as a share."""
        return [share_of(use, capacity) for use, capacity in zip(used, self.capacity)]

    def above(self, used: list[int]) -> int:
        """How many machines are above their safety capacity."""
        return sum(use > safe for use, safe in zip(used, self.safety))

    def fullest(self, used: list[int]) -> float:
        return max(self.shares(used))

    def threshold(self) -> int | None:
        """The share at which the safety capacity stands on all machines, in whole per cents, or None."""
        parts = {round(100 * share_of(safe, capacity)) for safe, capacity in zip(self.safety, self.capacity) if capacity}
        return parts.pop() if len(parts) == 1 else None

    def summed(self) -> ResourceSum:
        return ResourceSum(self.name, self.above(self.before), self.above(self.after), self.fullest(self.before),
                           self.fullest(self.after))


def share_of(use: int, capacity: int) -> float:
    return use / capacity if capacity else float(use > 0)


def uses_of(model: Model, names: Names, start: list[int], end: list[int], shown: Container[int] | None = None) -> list[ResourceUse]:
    """The use of each resource by the lists `start` and `end`, or of those that are shown."""
    def column(rows: list[list[int]], r: int) -> list[int]:
        return [row[r] for row in rows]
    before, after = model.use(start), model.use(end)
    return [ResourceUse(name, *(column(rows, r) for rows in (model.capacity, model.safety, before, after)))
            for r, name in enumerate(names.resources) if shown is None or r in shown]


def headline(uses: list[ResourceUse], moved: int, processes: int) -> str:
    """What one tells others: who moves, and what it does to the resource of which most machines were above safety."""
    worst = max(uses, key=lambda use: (use.above(use.before), use.above(use.after), use.fullest(use.before)))
    before, after = worst.above(worst.before), worst.above(worst.after)
    fullest = f"the fullest {percents(worst.fullest(worst.before))} before, {percents(worst.fullest(worst.after))} after"
    move = f"{moved:,} of {processes:,} processes move." if moved != 1 else f"1 of {processes:,} processes moves."
    if not before and not after:
        return f"{move} No machine is above its safety capacity, before or after; of {worst.name} {fullest}."
    part = worst.threshold()
    mark = "the safety capacity" if part is None else f"{part} %"
    return f"{move} Machines above {mark} of {worst.name}: {before:,} before, {after:,} after; {fullest}."


def percents(share: float) -> str:
    return f"{100 * share:.0f} %"
