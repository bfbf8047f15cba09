"""Empties as many machines as it can, one after another.

The processes of a machine go to others, each where least room is left after it, or none of them goes. If a process finds no
place, another one may make room for it. Whatever list comes is feasible from the start."""
import time
from collections import Counter
from collections.abc import Iterable, Sequence
from fractions import Fraction
from operator import add, sub

from .models import Model

MOST_ASIDE = 40  # machines on which one process is tried to make room for another
MOST_TRIED = 12  # processes that are tried there


class Emptying:
    """An assignment whose machines are emptied. `closed` has a flag for each machine that nobody may enter; `prices` are what
    the machines cost, the cheapest of which are filled first."""

    def __init__(self, model: Model, start: list[int], closed: Iterable[bool], prices: Sequence[Fraction]) -> None:
        self.model, self.start, self.now, self.closed, self.prices = model, start, list(start), list(closed), prices
        self.use, self.held = model.use(start), model.left_behind(start, start)
        self.on: list[set[int]] = [set() for _ in range(model.machines)]
        self.there: set[tuple[int, int]] = set()  # services and machines
        self.at_location: Counter[tuple[int, int]] = Counter()
        self.in_hood: Counter[tuple[int, int]] = Counter()
        self.spread = [0] * model.services
        self.needed_by: list[list[int]] = [[] for _ in range(model.services)]
        for service, needs in enumerate(model.needs):
            for needed in dict.fromkeys(needs):
                if needed != service:
                    self.needed_by[needed].append(service)
        for process, machine in enumerate(start):
            self.enter(process, machine)
        self.transient = [r for r, flag in enumerate(model.transient) if flag]
        self.emptied: list[int] = []
        self.done: list[tuple[int, int]] = []  # the shifts of the machine that is being emptied, to be taken back

    # Shifts

    def enter(self, process: int, machine: int) -> None:
        model, service = self.model, self.model.service[process]
        self.on[machine].add(process)
        self.there.add((service, machine))
        at = service, model.locations[machine]
        self.spread[service] += not self.at_location[at]
        self.at_location[at] += 1
        self.in_hood[service, model.hoods[machine]] += 1

    def leave(self, process: int, machine: int) -> None:
        model, service = self.model, self.model.service[process]
        self.on[machine].discard(process)
        self.there.discard((service, machine))
        at = service, model.locations[machine]
        self.at_location[at] -= 1
        self.spread[service] -= not self.at_location[at]
        self.in_hood[service, model.hoods[machine]] -= 1

    def shift(self, process: int, machine: int) -> None:
        here, home, required = self.now[process], self.start[process], self.model.required[process]
        self.leave(process, here)
        self.enter(process, machine)
        self.use[here] = list(map(sub, self.use[here], required))
        self.use[machine] = list(map(add, self.use[machine], required))
        if here == home != machine:
            self.held[home] = list(map(add, self.held[home], required))
        elif machine == home != here:
            self.held[home] = list(map(sub, self.held[home], required))
        self.now[process] = machine

    def go(self, process: int, machine: int) -> None:
        self.done.append((process, self.now[process]))
        self.shift(process, machine)

    def take_back(self, count: int = 0) -> None:
        """Takes the last shifts back, down to so many."""
        while len(self.done) > count:
            self.shift(*self.done.pop())

    # Rules

    def has_room(self, process: int, machine: int) -> bool:
        required, use, capacity = self.model.required[process], self.use[machine], self.model.capacity[machine]
        for used, more, room in zip(use, required, capacity):
            if used + more > room:
                return False
        if self.start[process] != machine:
            held = self.held[machine]
            return all(use[r] + held[r] + required[r] <= capacity[r] for r in self.transient)
        return True

    def may_go(self, process: int, machine: int) -> bool:
        """Whether a shift of a process breaks no rule, but for the room on the machine that it leaves."""
        model, service, here = self.model, self.model.service[process], self.now[process]
        if self.closed[machine] or (service, machine) in self.there or not self.has_room(process, machine):
            return False
        old, new = model.locations[here], model.locations[machine]
        if old != new:
            lost, won = self.at_location[service, old] == 1, not self.at_location[service, new]
            if self.spread[service] - lost + won < model.spreads[service]:
                return False
        old, new = model.hoods[here], model.hoods[machine]
        if old == new:
            return True
        if self.in_hood[service, old] == 1 and any(self.in_hood[asking, old] for asking in self.needed_by[service]):
            return False
        return all(needed == service or self.in_hood[needed, new] for needed in model.needs[service])

    # Emptying

    def go_on(self, order: Iterable[int], ends: float) -> None:
        """Empties machines in this order as long as there is time, and those that couldn't be emptied again, since others have
        made room since."""
        left = list(order)
        while left and time.monotonic() < ends:
            stuck = [machine for machine in left if not self.empty(machine, ends)]
            if len(stuck) == len(left):
                break
            left = stuck

    def empty(self, machine: int, ends: float) -> bool:
        """Empties a machine. Answers whether that came about; nothing has changed else. `ends` is when it has to end."""
        self.done, was_closed = [], self.closed[machine]
        self.closed[machine] = True
        left = sorted(self.on[machine], key=lambda p: (-self.size(p), p))
        while left and time.monotonic() < ends:
            stuck = [p for p in left if not self.place(p)]
            if len(stuck) == len(left):
                some = self.make_room(stuck, ends)
                if some is None:
                    break
                stuck = some
            left = stuck
        if left:
            self.take_back()
            self.closed[machine] = was_closed
        else:
            self.emptied.append(machine)
        self.done = []
        return not left

    def size(self, process: int) -> float:
        """How much a process requires, as the greatest part of what the machine that it is on has."""
        capacity = self.model.capacity[self.now[process]]
        return max(more / max(room, 1) for more, room in zip(self.model.required[process], capacity))

    def room_after(self, process: int, machine: int) -> tuple[bool, Fraction, float, int]:
        """What a machine is worth as a place: whether a safety capacity is passed there then, its price, and the part of its
        scarcest resource that is left. The least is the best."""
        model, least, is_above = self.model, 1.0, False
        rows = self.use[machine], model.required[process], model.capacity[machine], model.safety[machine]
        for used, more, room, safe in zip(*rows):
            is_above = is_above or used + more > safe
            if room:
                least = min(least, (room - used - more) / room)
        return is_above, self.prices[machine], least, machine

    def place(self, process: int) -> bool:
        """Puts a process on the machine where least room is left after it, if one takes it."""
        machines = (machine for machine in range(self.model.machines) if self.may_go(process, machine))
        best = min((self.room_after(process, machine) for machine in machines), default=None)
        if best:
            self.go(process, best[-1])
        return best is not None

    def make_room(self, stuck: list[int], ends: float) -> list[int] | None:
        """Places one of these processes where another one leaves for a third machine. Answers those that are left, or None if
        none could be placed."""
        for process in stuck:
            machines = sorted((m for m in range(self.model.machines) if not self.closed[m]), key=lambda m: self.lack(process, m))
            for machine in machines[:MOST_ASIDE]:
                for other in sorted(self.on[machine], key=self.size)[:MOST_TRIED]:
                    if time.monotonic() > ends:
                        return None
                    before = len(self.done)
                    if self.place(other):
                        if self.now[other] != machine and self.may_go(process, machine):
                            self.go(process, machine)
                            return [p for p in stuck if p != process]
                        self.take_back(before)
        return None

    def lack(self, process: int, machine: int) -> float:
        """What a machine lacks for a process, as the greatest part of its capacity."""
        return max((used + more - room) / max(room, 1) for used, more, room in
                   zip(self.use[machine], self.model.required[process], self.model.capacity[machine]))

    def part_in_use(self, machine: int) -> float:
        """The greatest part of a capacity that is in use."""
        rows = self.use[machine], self.model.capacity[machine]
        return max(used / room if room else float(used > 0) for used, room in zip(*rows))
