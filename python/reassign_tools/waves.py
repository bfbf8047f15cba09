"""Moves in waves: so many at once, so that the list after each wave breaks no rule."""
from collections import Counter
from dataclasses import dataclass

from .choosing_moves import MOST_TOGETHER, Choice, Group
from .models import Model
from .states import Cause, State

MOST_STUCK = 200  # processes for which a third machine is looked for
MOST_THIRD = 60  # machines that are looked at for each
MOST_AT_ONCE = 10  # moves of a wave that are looked for because none of them can be done alone


@dataclass(frozen=True)
class Move:
    """A process that moves from the machine `start` to the machine `end`, and what it requires of each resource."""

    process: int
    service: int
    start: int
    end: int
    required: tuple[int, ...]


@dataclass(frozen=True)
class Wave:
    """The moves of a wave, the list after it, and what that costs."""

    moves: list[Move]
    assignment: list[int]
    cost: int


@dataclass(frozen=True)
class Stuck:
    """A move that can't be brought into a wave, and the rule in the way, in the program's words; none if it can go with others
    alone, more than a wave takes."""

    move: Move
    rule: Cause | None


def move_of(model: Model, process: int, start: int, end: int) -> Move:
    return Move(process, model.service[process], start, end, tuple(model.required[process]))


def moves_between(model: Model, start: list[int], end: list[int]) -> list[Move]:
    """The moves between two lists, in the order of the processes."""
    return [move_of(model, p, a, b) for p, (a, b) in enumerate(zip(start, end)) if a != b]


class Limits:
    """What may stand in one wave: so many moves, and of each service so many."""

    def __init__(self, model: Model, most: int, per_service: int | None = None) -> None:
        self.model, self.most, self.per_service = model, most, per_service
        self.begin()

    def begin(self) -> None:
        """Another wave begins."""
        self.count = 0
        self.services: Counter[int] = Counter()

    def takes(self, group: Group) -> bool:
        """Whether the wave has room for these processes too."""
        if self.count + len(group) > self.most:
            return False
        if self.per_service is None:
            return True
        more = Counter(self.model.service[p] for p in group)
        return all(self.services[service] + count <= self.per_service for service, count in more.items())

    def take(self, group: Group) -> None:
        self.count += len(group)
        self.services.update(self.model.service[p] for p in group)


class WaveChoice(Choice):
    """Takes those processes first that lower the cost most, as far as the wave has room for them."""

    def __init__(self, model: Model, start: list[int], new: list[int], leaves: frozenset[int], stay_cost: int,
                 limits: Limits) -> None:
        self.limits = limits
        self.aside: list[tuple[Group, float]] = []
        super().__init__(model, start, new, start, leaves, stay_cost)
        self.most_together = min(max(MOST_TOGETHER, limits.most), MOST_AT_ONCE)

    def fits(self, group: Group, most: int) -> bool:
        return self.limits.takes(group)

    def set_aside(self, group: Group, value: float) -> None:
        self.aside.append((group, value))

    def wave(self) -> list[int]:
        """The processes of the next wave, which go; none if nobody can go."""
        self.limits.begin()
        waiting, self.aside = self.aside, []
        for group, value in waiting:
            if all(p in self.left for p in group):
                self.queue(group, value)
            else:
                for p in self.left.intersection(group):
                    self.queue((p,), self.value(p))
        gone: list[int] = []
        while (coming := self.next_group(self.limits.most)) is not None:
            self.go(coming)
            self.limits.take(coming)
            gone += coming
        if not gone and self.left and self.limits.takes(tuple(self.left)):
            gone = sorted(self.left)
            self.go(tuple(gone))  # the new list breaks no rule
        return gone


class Waves:
    """The moves from a start to a new list, both of which break no rule, in waves: each has its moves and the list after it.
    `closed` has a flag for each machine."""

    def __init__(self, model: Model, start: list[int], new: list[int], closed: list[bool], leaves: frozenset[int], stay_cost: int,
                 most: int, per_service: int | None = None, through: bool = False) -> None:
        self.model, self.new, self.limits, self.now = model, new, Limits(model, most, per_service), list(start)
        self.waves: list[tuple[list[Move], list[int]]] = []
        choice = WaveChoice(model, start, new, leaves, stay_cost, self.limits)
        while gone := choice.wave():
            self.add([move_of(model, p, self.now[p], new[p]) for p in sorted(gone)])
        self.state = State(model, start, self.now, closed)
        if through:
            self.go_through()

    def add(self, moves: list[Move]) -> None:
        for one in moves:
            self.now[one.process] = one.end
        self.waves.append((moves, list(self.now)))

    def left(self) -> list[int]:
        """The processes that aren't where they should be."""
        return [p for p, (here, there) in enumerate(zip(self.now, self.new)) if here != there]

    def why(self, process: int) -> Cause | None:
        """The rule that keeps a process from its machine, or None."""
        return self.state.breaks(process, self.new[process])

    def stuck(self) -> list[Stuck]:
        """The moves that are left."""
        return [Stuck(move_of(self.model, p, self.now[p], self.new[p]), self.why(p)) for p in self.left()]

    # By a third machine

    def go_through(self) -> None:
        """Goes on by waves in which a process waits on a third machine until its own has room."""
        waited: set[int] = set()
        while self.left():
            self.limits.begin()
            moves: list[Move] = []
            while (p := self.next_alone({one.process for one in moves})) is not None:
                moves.append(self.move(p, self.new[p]))
            if not moves:
                third = self.third(waited)
                if third is None:
                    return
                waited.add(third[0])
                moves.append(self.move(*third))
            self.add(moves)

    def move(self, process: int, machine: int) -> Move:
        one = move_of(self.model, process, self.state.now[process], machine)
        self.state.shift(process, machine)
        self.limits.take((process,))
        return one

    def next_alone(self, gone: set[int]) -> int | None:
        """A process that can go where it should be."""
        some = (p for p, (here, there) in enumerate(zip(self.state.now, self.new)) if here != there and p not in gone)
        return next((p for p in some if self.limits.takes((p,)) and self.why(p) is None), None)

    def third(self, waited: set[int]) -> tuple[int, int] | None:
        """A process with a third machine where it can wait, so that another one can go then; or None."""
        left = self.left()
        for p in left[:MOST_STUCK]:
            if p in waited or not self.limits.takes((p,)):
                continue
            here = self.state.now[p]
            for machine in self.roomy(p)[:MOST_THIRD]:
                if self.state.breaks(p, machine) is None:
                    self.state.shift(p, machine)
                    helps = any(self.why(q) is None for q in left if q != p)
                    self.state.shift(p, here)
                    if helps:
                        return p, machine
        return None

    def roomy(self, process: int) -> list[int]:
        """The machines, those first where most room would be left of the scarcest resource."""
        required = self.model.required[process]

        def room(machine: int) -> float:
            return min((limit - used - more) / max(limit, 1) for limit, used, more in
                       zip(self.model.capacity[machine], self.state.use[machine], required))
        some = [m for m in range(self.model.machines) if m not in (self.state.now[process], self.new[process])]
        return sorted(some, key=lambda m: (-room(m), m))
