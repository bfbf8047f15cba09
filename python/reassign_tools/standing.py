"""An assignment between two lists, whose cost and broken rules are kept while processes go from the one to the other."""
from collections import Counter
from operator import add, gt, sub

from .files import number_of
from .models import Model


class Standing:
    """An assignment between a start and a new list that is feasible from there.

    Each process is on its machine of the start or on that of the new list. So transient use and closed machines break no rule:
    on a machine are or were never other processes than those of both lists. `cost` is the objective, and `broken` counts
    capacities, conflicts, spreads and dependencies that aren't met; it is 0 exactly if the assignment is feasible.

    `leaves` has the processes that leave a closed machine. While one of them stays there, `cost` has `stay_cost` more, which is
    more than any list between both costs."""

    def __init__(self, model: Model, start: list[int], new: list[int], now: list[int],
                 leaves: frozenset[int] = frozenset(), stay_cost: int = 0) -> None:
        self.model, self.start, self.new, self.now = model, start, new, list(now)
        self.leaves, self.stay_cost = leaves, stay_cost
        self.use = model.use(now)
        self.rooms = list(zip(model.capacity, model.safety))
        self.ways = self.costs_of_ways()
        self.needs = [[needed for needed in dict.fromkeys(needs) if needed != service]
                      for service, needs in enumerate(model.needs)]
        self.needed_by: list[list[int]] = [[] for _ in self.needs]
        for service, needs in enumerate(self.needs):
            for needed in needs:
                self.needed_by[needed].append(service)
        self.on_machine: Counter[tuple[int, int]] = Counter()
        self.in_location: Counter[tuple[int, int]] = Counter()
        self.in_hood: Counter[tuple[int, int]] = Counter()
        self.locations, self.moved = [0] * model.services, [0] * model.services
        self.levels = Counter({0: model.services})  # how many services have so many moved processes
        self.most_moved = 0
        self.weighed = [self.weigh(machine, use) for machine, use in enumerate(self.use)]
        self.broken = sum(model.spreads) + sum(sum(map(gt, use, room)) for use, room in zip(self.use, model.capacity))
        stays = Counter(home for home, machine in zip(start, now) if home == machine)
        self.cost = sum(self.weighed) + model.weights[2] * sum(count * model.stay_cost(home) for home, count in stays.items())
        self.cost += stay_cost * sum(start[process] == self.now[process] for process in leaves)
        for process, machine in enumerate(now):
            self.enter(process, machine)
            if machine != start[process]:
                self.cost += self.ways[process][1]
                self.count_moved(model.service[process], 1)

    def costs_of_ways(self) -> dict[int, tuple[int, int]]:
        """For each process that differs, what it costs that it stays, and that it moves, but for its service."""
        model = self.model
        by_home: dict[int, list[int]] = {}
        ways = {}
        for process, (home, machine) in enumerate(zip(self.start, self.new)):
            if home != machine:
                by_home.setdefault(home, []).append(process)
        weight, _, way_weight = model.weights
        for home, some in by_home.items():
            row = model.ways[home].split()
            for process in some:
                ways[process] = (way_weight * number_of(row[home]) + (self.stay_cost if process in self.leaves else 0),
                                 way_weight * number_of(row[self.new[process]]) + weight * model.move_cost[process])
        return ways

    def weigh(self, machine: int, use: list[int]) -> int:
        """What load and balance cost on a machine with this use."""
        cost, (capacity, safety) = 0, self.rooms[machine]
        for weight, used, safe in zip(self.model.load_weights, use, safety):
            if used > safe:
                cost += weight * (used - safe)
        for first, second, goal, weight in self.model.balances:
            lack = goal * max(0, capacity[first] - use[first]) - max(0, capacity[second] - use[second])
            if lack > 0:
                cost += weight * lack
        return cost

    def other(self, process: int) -> int:
        """The machine to which a process can go: the one of both lists on which it isn't."""
        return self.new[process] if self.now[process] == self.start[process] else self.start[process]

    def leaving(self, process: int) -> int:
        """By how much the cost of the machine that a process is on grows if it leaves."""
        machine = self.now[process]
        return self.weigh(machine, list(map(sub, self.use[machine], self.model.required[process]))) - self.weighed[machine]

    def entering(self, process: int) -> int:
        """By how much the cost of the machine where a process goes grows."""
        machine = self.other(process)
        return self.weigh(machine, list(map(add, self.use[machine], self.model.required[process]))) - self.weighed[machine]

    def going(self, process: int) -> int:
        """By how much the costs of its move and of its way grow if a process goes."""
        stay, move = self.ways[process]
        return move - stay if self.now[process] == self.start[process] else stay - move

    def count_moved(self, service: int, more: int) -> None:
        """Counts one moved process of a service more, or one less."""
        before, most = self.moved[service], self.most_moved
        self.moved[service] = count = before + more
        self.levels[before] -= 1
        self.levels[count] += 1
        if count > most or before == most and not self.levels[most]:
            self.most_moved = count
        self.cost += self.model.weights[1] * (self.most_moved - most)

    def enter(self, process: int, machine: int) -> None:
        """Counts a process of its service on a machine."""
        model, service = self.model, self.model.service[process]
        if self.on_machine[service, machine]:
            self.broken += 1
        self.on_machine[service, machine] += 1
        location = service, model.locations[machine]
        if not self.in_location[location]:
            self.locations[service] += 1
            if self.locations[service] <= model.spreads[service]:
                self.broken -= 1
        self.in_location[location] += 1
        hood = model.hoods[machine]
        if not self.in_hood[service, hood]:
            self.broken += self.lonely(service, hood)
        self.in_hood[service, hood] += 1

    def leave(self, process: int, machine: int) -> None:
        """Counts it there no more."""
        model, service = self.model, self.model.service[process]
        self.on_machine[service, machine] -= 1
        if self.on_machine[service, machine]:
            self.broken -= 1
        location = service, model.locations[machine]
        self.in_location[location] -= 1
        if not self.in_location[location]:
            self.locations[service] -= 1
            if self.locations[service] < model.spreads[service]:
                self.broken += 1
        hood = model.hoods[machine]
        self.in_hood[service, hood] -= 1
        if not self.in_hood[service, hood]:
            self.broken -= self.lonely(service, hood)

    def lonely(self, service: int, hood: int) -> int:
        """By how much more dependencies are broken in a neighbourhood if the service is there than if it isn't."""
        there = self.in_hood
        return (sum(not there[needed, hood] for needed in self.needs[service])
                - sum(there[asking, hood] > 0 for asking in self.needed_by[service]))

    def go(self, process: int) -> None:
        """Takes a process to its other machine."""
        here, there, required = self.now[process], self.other(process), self.model.required[process]
        self.cost += self.going(process)
        for machine, change in ((here, sub), (there, add)):
            before, room = self.use[machine], self.model.capacity[machine]
            self.use[machine] = use = list(map(change, before, required))
            self.broken += sum(map(gt, use, room)) - sum(map(gt, before, room))
            cost = self.weigh(machine, use)
            self.cost += cost - self.weighed[machine]
            self.weighed[machine] = cost
        self.count_moved(self.model.service[process], 1 if here == self.start[process] else -1)
        self.leave(process, here)
        self.enter(process, there)
        self.now[process] = there
