"""Which moves between two lists bring most.

Both lists are feasible, and so is each assignment that a choice passes through. A choice begins at one of the lists and takes
processes to their machines of the other, those first that lower the cost most (or raise it least). If a process can't go alone,
since its place is taken or a rule would break, others go with it. Begun at the new list, it tells which moves bring least."""
import heapq
from collections.abc import Iterable, Sequence

from .models import Model
from .standing import Standing

Group = tuple[int, ...]  # processes that go together
MOST_TOGETHER = 6  # processes that go at once
MOST_TRIED = 24  # processes that are tried as companions of another


class Choice:
    """Takes processes from the machines of one list to those of the other, step by step. `begin` is one of the lists."""

    def __init__(self, model: Model, start: list[int], new: list[int], begin: list[int],
                 leaves: frozenset[int] = frozenset(), stay_cost: int = 0) -> None:
        self.model, self.standing = model, Standing(model, start, new, begin, leaves, stay_cost)
        self.left = {p for p, (home, there) in enumerate(zip(start, new)) if home != there}
        self.steps: list[tuple[Group, int]] = []  # the processes that went at once, and the cost after it
        self.gone = 0
        # Who is left, by machine and service.
        self.here: dict[int, set[int]] = {}
        self.there: dict[int, set[int]] = {}
        self.members: dict[int, set[int]] = {}
        for p in self.left:
            self.here.setdefault(self.standing.now[p], set()).add(p)
            self.there.setdefault(self.standing.other(p), set()).add(p)
            self.members.setdefault(model.service[p], set()).add(p)
        self.out = {p: self.standing.leaving(p) for p in self.left}
        self.into = {p: self.standing.entering(p) for p in self.left}
        self.heap: list[tuple[float, int, int, Group]] = []
        self.stamps: dict[int, int] = {}
        self.queued: dict[int, float] = {}
        # Who found no companions, by the machines and services on which that rests.
        self.waiting: dict[tuple[str, int], set[int]] = {}
        self.parked: set[int] = set()
        self.most_together = MOST_TOGETHER
        for p in sorted(self.left):
            self.queue((p,), self.value(p))

    def value(self, process: int) -> int:
        """By how much the cost grows if a process goes alone, but for its service."""
        return self.out[process] + self.into[process] + self.standing.going(process)

    def weigh(self, group: Sequence[int]) -> tuple[int, int]:
        """By how much the cost grows if a group goes, and how many rules are broken then."""
        standing = self.standing
        cost = standing.cost
        for p in group:
            standing.go(p)
        grown, broken = standing.cost - cost, standing.broken
        for p in reversed(group):
            standing.go(p)
        return grown, broken

    def queue(self, group: Group, value: float) -> None:
        """Puts a group where it belongs by its value for each process; also if it can't go as it is."""
        number = len(self.heap) + self.stamps.get(group[0], 0) + 1
        self.stamps[group[0]], self.queued[group[0]] = number, value
        heapq.heappush(self.heap, (value, group[0], number, group))

    def next_group(self, most: int) -> Group | None:
        """The group of at most so many processes that lowers the cost most for each process, or None if none can go."""
        while self.heap:
            value, first, number, group = heapq.heappop(self.heap)
            if first not in self.left or self.stamps[first] != number:
                continue
            group = tuple(p for p in group if p in self.left)
            rise, broken = self.weigh(group)
            grown = rise / len(group)
            if self.heap and max(value, self.heap[0][0]) < grown:
                self.queue(group, grown)  # it brings less than it did
            elif not broken and self.fits(group, most):
                return group
            elif not broken:
                self.set_aside(group, grown)
            elif broken and len(group) == 1:
                self.look_for_companions(first)
            elif broken:
                self.queue((first,), self.value(first))
        return None

    def fits(self, group: Group, most: int) -> bool:
        """Whether a group may go now that can go."""
        return len(group) <= most

    def set_aside(self, group: Group, value: float) -> None:
        """A group can go and may not: it is passed over."""

    def look_for_companions(self, first: int) -> None:
        """Queues a group that can go with a process that can't go alone, or lets it wait."""
        group, (grown, broken) = [first], self.weigh((first,))
        while broken and len(group) < self.most_together:
            tried = [(*reversed(self.weigh((*group, p))), p) for p in self.companions(group)]
            if not tried or min(tried)[0] > broken:
                break
            broken, grown, best = min(tried)
            group.append(best)
        if broken:
            self.wait(first)
        else:
            self.queue(tuple(group), grown / len(group))

    def companions(self, group: Iterable[int]) -> list[int]:
        """Those who may make it possible that a group goes: who leaves the machines that it enters, and who is of its
        services or of those that depend on them or on which they depend."""
        found: dict[int, None] = {}
        for p in group:
            found.update(dict.fromkeys(sorted(self.here.get(self.standing.other(p), ()))))
        for p in group:
            for service in self.related(p):
                found.update(dict.fromkeys(sorted(self.members.get(service, ()))))
        return [p for p in found if p not in group][:MOST_TRIED]

    def related(self, process: int) -> tuple[int, ...]:
        service = self.model.service[process]
        return service, *self.standing.needs[service], *self.standing.needed_by[service]

    def wait(self, first: int) -> None:
        self.parked.add(first)
        for key in (("machine", self.standing.other(first)), *(("service", service) for service in self.related(first))):
            self.waiting.setdefault(key, set()).add(first)

    def go(self, group: Group) -> None:
        """Takes a group to its machines, and values those anew to whom that matters."""
        machines: set[int] = set()
        woken: set[int] = set()
        for p in group:
            here, there, service = self.standing.now[p], self.standing.other(p), self.model.service[p]
            self.standing.go(p)
            self.left.discard(p)
            self.here[here].discard(p)
            self.there[there].discard(p)
            self.members[service].discard(p)
            machines |= {here, there}
            for key in (("machine", here), ("service", service)):
                woken |= self.waiting.pop(key, set()) & self.parked
        self.steps.append((group, self.standing.cost))
        self.gone += len(group)
        for machine in sorted(machines):
            for p in self.here.get(machine, ()):
                self.out[p] = self.standing.leaving(p)
            for p in self.there.get(machine, ()):
                self.into[p] = self.standing.entering(p)
        self.parked -= woken
        for machine in sorted(machines):
            for p in sorted(self.here.get(machine, set()) | self.there.get(machine, set())):
                if p not in self.parked and p not in woken and self.value(p) < self.queued[p]:
                    self.queue((p,), self.value(p))
        for p in sorted(woken & self.left):
            self.queue((p,), self.value(p))

    def run(self, most: int, while_lower: bool = False) -> None:
        """Goes on until so many have gone, or nobody can go, or, if it is asked, the cost would rise."""
        while self.gone < most:
            group = self.next_group(most - self.gone)
            if group is None:
                break
            grown = self.weigh(group)[0]
            if while_lower and grown > 0:
                self.queue(group, grown / len(group))
                break
            self.go(group)
