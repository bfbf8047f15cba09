#!/usr/bin/env python3
"""Judges a list by the evaluator of compare.py, and prints its cost and parts, or the constraint that it breaks first.

usage: judge_list.py MODEL INITIAL NEW [CLOSED]

The evaluator sums anew for each number that it needs. Here the sums of a list are made once and looked up, so that the
largest instances take seconds. Needs python3 alone.
"""
import sys
from array import array
from itertools import islice

from compare import Instance, cost_lines


class Summed(Instance):
    """An instance that keeps the sums of the list at which it looked last."""

    seen = None

    def look_at(self, start, machines):
        """Makes the sums of a list, if they aren't there."""
        if self.seen and self.seen[0] is start and self.seen[1] is machines:
            return
        resources = range(len(self.transient))
        self.seen = start, machines
        self.uses = [[0 for _ in resources] for _ in self.locations]
        self.transient_uses = [[0 for _ in resources] for _ in self.locations]
        self.own = [[] for _ in self.spreads]
        for p, (home, at) in enumerate(zip(start, machines)):
            self.own[self.services[p]].append(at)
            for sums, places in ((self.uses, {at}), (self.transient_uses, {home, at})):
                for m in places:
                    for r, required in enumerate(self.requirements[p]):
                        sums[m][r] += required

    def broken(self, start, machines):
        self.look_at(start, machines)
        return super().broken(start, machines)

    def parts(self, start, machines):
        self.look_at(start, machines)
        return super().parts(start, machines)

    def use(self, machines, m, r):
        return self.uses[m][r]

    def transient_use(self, start, machines, m, r):
        return self.transient_uses[m][r]

    def machines_of(self, service, machines):
        return self.own[service]


def numbers_of(path):
    numbers = array("Q")
    with open(path, encoding="ascii") as file:
        for line in file:
            numbers.extend(map(int, line.split()))
    return numbers


def read_instance(path):
    """The instance of a model file that is one."""
    left = iter(numbers_of(path))

    def row(count):
        return list(islice(left, count))

    def one():
        return next(left)

    resources = [row(2) for _ in range(one())]
    count = len(resources)
    machines = one()
    fleet = [(one(), one(), row(count), row(count), array("I", islice(left, machines))) for _ in range(machines)]
    services = [(one(), row(one())) for _ in range(one())]
    processes = [(one(), row(count), one()) for _ in range(one())]
    balances = [row(4) for _ in range(one())]
    weights = row(3)
    neighbourhoods, locations, capacities, safeties, ways = map(list, zip(*fleet))
    return Summed(*map(list, zip(*resources)), neighbourhoods, locations, capacities, safeties, ways,
                  *map(list, zip(*services)), *map(list, zip(*processes)), balances, weights, [False] * machines)


def read_list(path):
    return list(numbers_of(path))


def main():
    words = sys.argv[1:]
    if words in (["-h"], ["--help"]):
        print(__doc__.strip())
        return 0
    if len(words) not in (3, 4):
        print("usage: judge_list.py MODEL INITIAL NEW [CLOSED]", file=sys.stderr)
        return 2
    inst = read_instance(words[0])
    start, new = map(read_list, words[1:3])
    for m in read_list(words[3]) if words[3:] else ():
        inst.closed[m] = True
    cause = inst.broken(start, new)
    print(f"infeasible: {cause}\n" if cause else cost_lines(inst.parts(start, new)), end="")
    return 6 if cause else 0


if __name__ == "__main__":
    sys.exit(main())
