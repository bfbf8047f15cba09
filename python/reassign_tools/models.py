"""Models: reading, writing, and what an assignment uses."""
import json
from array import array
from collections import Counter
from collections.abc import Iterator, Sequence
from dataclasses import dataclass, field
from typing import Self

from .files import LARGEST, Numbers, number_of, read_closed
from .problems import Problem

MOST_RESOURCES, MOST_MACHINES, MOST_SERVICES, MOST_PROCESSES, MOST_DEPENDENCIES = 20, 5_000, 50_000, 50_000, 100_000
MOST_BALANCES = 10


@dataclass
class Model:
    """A model. Resources, machines, services and processes are counted from 0, as in its file (docs/FORMATS.md)."""

    transient: list[int]  # by resource: 0 or 1
    load_weights: list[int]
    hoods: list[int]  # by machine
    locations: list[int]
    capacity: list[list[int]]  # by machine: a row by resource
    safety: list[list[int]]
    ways: list[bytes]  # by machine: the costs of the ways from it, as they stand in the file, in one row of bytes
    spreads: list[int]  # by service
    needs: list[list[int]]  # by service: the services that it depends on
    service: list[int]  # by process
    required: list[list[int]]  # by process: a row by resource
    move_cost: list[int]
    balances: list[Sequence[int]]  # (first, second, target, weight)
    weights: list[int]  # of processes, services and machines moved
    rows: dict[int, "array[int]"] = field(default_factory=dict, repr=False)

    @classmethod
    def read(cls, name: str) -> Self:
        """The model of a file. Raises Problem with status 3 if the file can't be read, and 4 if it is no model as far as its
        fields go; whether each number is in its range `reassign check` says."""
        numbers = Numbers(name, 4)
        take = numbers.take
        resources = numbers.count("resources", MOST_RESOURCES, 1)
        flags = take(2 * resources)
        machines = numbers.count("machines", MOST_MACHINES, 1)
        hoods, locations, capacity, safety, ways = [], [], [], [], []
        for _ in range(machines):
            hood, location = take(2)
            hoods.append(hood)
            locations.append(location)
            capacity.append(take(resources))
            safety.append(take(resources))
            ways.append(b" ".join(numbers.next_words(machines)))
        spreads, needs, left = [], [], MOST_DEPENDENCIES
        for _ in range(numbers.count("services", MOST_SERVICES, 1)):
            spreads.append(numbers.one())
            needs.append(take(numbers.count("dependencies", left)))
            left -= len(needs[-1])
        services, required, move_cost = [], [], []
        for _ in range(numbers.count("processes", MOST_PROCESSES, 1)):
            service, *row, cost = take(resources + 2)
            services.append(service)
            required.append(row)
            move_cost.append(cost)
        balances: list[Sequence[int]] = [take(4) for _ in range(numbers.count("balances", MOST_BALANCES))]
        model = cls(flags[0::2], flags[1::2], hoods, locations, capacity, safety, ways, spreads, needs, services, required,
                    move_cost, balances, take(3))
        for what, some, most in (("service", [*services, *(one for row in needs for one in row)], len(spreads)),
                                 ("resource", [one for row in balances for one in row[:2]], resources)):
            if max(some, default=0) >= most:
                raise numbers.wrong(f"names {what} {max(some)}, and has {most:,}")
        return model

    @property
    def resources(self) -> int:
        return len(self.transient)

    @property
    def machines(self) -> int:
        return len(self.capacity)

    @property
    def services(self) -> int:
        return len(self.spreads)

    @property
    def processes(self) -> int:
        return len(self.required)

    def way_costs(self, machine: int) -> "array[int]":
        """The row of ways as numbers, which are kept."""
        if machine not in self.rows:
            row = self.ways[machine]
            try:
                self.rows[machine] = array("I", json.loads(b"[" + row.replace(b" ", b",") + b"]"))
            except (ValueError, OverflowError):  # leading zeros, or too large
                costs = list(map(number_of, row.split()))
                if max(costs) > LARGEST:
                    raise Problem(f"a way from machine {machine} costs more than {LARGEST:,}", 4) from None
                self.rows[machine] = array("I", costs)
        return self.rows[machine]

    def stay_cost(self, machine: int) -> int:
        """The way from a machine to itself, which a model may give any cost."""
        return number_of(self.ways[machine].split(maxsplit=machine + 1)[machine])

    def pieces(self) -> Iterator[bytes]:
        """The text of the model, in pieces."""
        def line(*words: object) -> bytes:
            return (" ".join(map(str, words)) + "\n").encode()
        yield line(self.resources)
        for flag, weight in zip(self.transient, self.load_weights):
            yield line(flag, weight)
        yield line(self.machines)
        for machine, ways in enumerate(self.ways):
            at = self.hoods[machine], self.locations[machine], *self.capacity[machine], *self.safety[machine]
            yield line(*at)[:-1] + b" " + ways + b"\n"
        yield line(self.services)
        for spread, needs in zip(self.spreads, self.needs):
            yield line(spread, len(needs), *needs)
        yield line(self.processes)
        for service, required, cost in zip(self.service, self.required, self.move_cost):
            yield line(service, *required, cost)
        yield line(len(self.balances))
        for balance in self.balances:
            yield line(*balance)
        yield line(*self.weights)

    def use(self, assignment: list[int]) -> list[list[int]]:
        """What is used of each resource, by machine."""
        rows = [[0] * self.resources for _ in range(self.machines)]
        for machine, required in zip(assignment, self.required):
            rows[machine] = [used + more for used, more in zip(rows[machine], required)]
        return rows

    def left_behind(self, start: list[int], now: list[int]) -> list[list[int]]:
        """What the processes that left their first machine require together of each resource there."""
        rows = [[0] * self.resources for _ in range(self.machines)]
        for home, machine, required in zip(start, now, self.required):
            if home != machine:
                rows[home] = [used + more for used, more in zip(rows[home], required)]
        return rows

    def cost(self, start: list[int], now: list[int]) -> int:
        """What an assignment costs, as moved from a start."""
        cost = 0
        for used, capacity, safety in zip(self.use(now), self.capacity, self.safety):
            cost += sum(weight * (one - safe) for weight, one, safe in zip(self.load_weights, used, safety) if one > safe)
            for first, second, goal, weight in self.balances:
                cost += weight * max(0, goal * (capacity[first] - used[first]) - (capacity[second] - used[second]))
        return cost + sum(self.moves_cost(start, now))

    def moves_cost(self, start: list[int], now: list[int]) -> tuple[int, int, int]:
        """What the moves from a start cost: process, service, machine."""
        process = machine = 0
        moved: Counter[int] = Counter()
        stayed: Counter[int] = Counter()
        for p, (home, there) in enumerate(zip(start, now)):
            if home == there:
                stayed[home] += 1
            else:
                process += self.move_cost[p]
                moved[self.service[p]] += 1
                machine += self.way_costs(home)[there]
        machine += sum(count * self.stay_cost(home) for home, count in stayed.items())
        return self.weights[0] * process, self.weights[1] * max(moved.values(), default=0), self.weights[2] * machine

    def members(self) -> list[list[int]]:
        """The processes of each service."""
        members: list[list[int]] = [[] for _ in range(self.services)]
        for process, service in enumerate(self.service):
            members[service].append(process)
        return members

    def groups(self) -> list[list[int]]:
        """The services in groups: two that depend on each other, directly or through others, are in one."""
        near = [set(needs) for needs in self.needs]
        for service, needs in enumerate(self.needs):
            for needed in needs:
                near[needed].add(service)
        groups, seen = [], set()
        for first in range(self.services):
            group, coming = [], [first]
            while coming:
                service = coming.pop()
                if service not in seen:
                    seen.add(service)
                    group.append(service)
                    coming += sorted(near[service] - seen, reverse=True)
            if group:
                groups.append(group)
        return groups


def same_sizes(model: Model, name: str, *lists: list[int]) -> None:
    for one in lists:
        if len(one) != model.processes or any(not 0 <= machine < model.machines for machine in one):
            raise Problem(f"{name}: the lists and the model don't belong together", 5)


def closed_flags(model: Model, name: str | None) -> list[bool]:
    flags = [False] * model.machines
    for machine in read_closed(name, model.machines) if name else ():
        flags[machine] = True
    return flags
