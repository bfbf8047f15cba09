#!/usr/bin/env python3
"""Makes a tight instance and a feasible start, of a size that the challenge's sets have.

usage: make_shapes.py FOLDER SHAPE SEED

Writes FOLDER/model and FOLDER/initial. SHAPE is one of these, named by its machines, processes and resources:

    50x1000x3     50x1000x12     100x1000x12     100x5000x12
    100x20000x6   100x40000x6    1000x40000x3    4000x40000x6

Counts of services, neighbourhoods, locations, dependencies, transient resources and balances are the published ones too.
The same words make the same files.

Of the scarcest resource some nine tenths are in use. A few services have many processes and most have few, and so it is
with what a process requires, of all resources alike. Machines are of a few classes. A safety capacity is near the average
use of its class; some machines start full, and others with room. The ways cost 0 to 10, by location.

The start is made first: large processes before small ones, each on a machine with room for it and without its service. If
there's no such machine, the process gets smaller. Then spreads and dependencies are drawn among those that the start
meets. Needs python3 alone, and some seconds for the largest.
"""
import math
import os
import random
import sys
from collections import namedtuple
from itertools import accumulate

from make_instance import joined, write_list

Shape = namedtuple("Shape", "machines processes resources transient services neighbourhoods locations dependencies balances")
SHAPES = {f"{shape.machines}x{shape.processes}x{shape.resources}": shape for shape in (
    Shape(50, 1_000, 3, 1, 142, 50, 50, 297, 1),
    Shape(50, 1_000, 12, 0, 153, 5, 25, 506, 1),
    Shape(100, 1_000, 12, 4, 129, 5, 25, 577, 0),
    Shape(100, 5_000, 12, 4, 2_512, 5, 10, 4_412, 0),
    Shape(100, 20_000, 6, 2, 15_025, 5, 10, 16_560, 0),
    Shape(100, 40_000, 6, 2, 35_082, 5, 10, 14_515, 0),
    Shape(4_000, 40_000, 6, 0, 15_050, 5, 50, 43_873, 1),
    Shape(1_000, 40_000, 3, 0, 4_609, 5, 100, 43_437, 1),
)}
# What is in use of the scarcest resource, and of the others.
SCARCE, AMPLE = (0.87, 0.915), (0.5, 0.8)
# The largest share of the smallest machine that a process requires, and of the machines that a service stands on.
LARGEST, WIDEST = 0.5, 0.8
# The largest share of a machine that is held free at first.
MOST_HELD = 0.12
# How many machines a process tries by their popularity, and how many by chance, before it tries them all.
POPULAR, ANY = 8, 24
LARGEST_WAY = 10


class Made:
    """An instance of a shape, with its start. Each number is drawn in the order of the calls."""

    def __init__(self, shape, chance):
        self.shape, self.chance = shape, chance
        self.resources = range(shape.resources)
        self.make_machines()
        self.make_services()
        self.make_requirements()
        self.place()
        self.make_safeties()
        self.make_dependencies()

    def make_machines(self):
        """Labels and capacities. A class has factors of its own, and some classes have few machines."""
        shape, chance = self.shape, self.chance
        self.locations = spread_labels(chance, shape.machines, shape.locations)
        if chance.random() < 0.5:
            self.neighbourhoods = [location % shape.neighbourhoods for location in self.locations]
        else:
            self.neighbourhoods = spread_labels(chance, shape.machines, shape.neighbourhoods)
        self.scarcest = chance.randrange(shape.resources)
        self.used = [chance.uniform(*SCARCE if r == self.scarcest else AMPLE) for r in self.resources]
        self.means = [chance.choice((30, 100, 300)) for _ in self.resources]
        sizes = [chance.choice((0.6, 0.8, 1, 1.25, 1.6, 2)) for _ in range(chance.randint(4, 8))]
        classes = [[size * chance.uniform(0.8, 1.25) for _ in self.resources] for size in sizes]
        shares = [1 / (1 + number) for number in range(len(classes))]
        self.classes = chance.choices(range(len(classes)), shares, k=shape.machines)
        each = shape.processes / shape.machines
        rows = [[round(mean * each / used * factor) for mean, used, factor in zip(self.means, self.used, row)] for row in classes]
        self.capacities = [rows[number] for number in self.classes]

    def make_services(self):
        """The service of each process."""
        shape, chance = self.shape, self.chance
        most = max(1, int(WIDEST * shape.machines))
        weights = list(accumulate(chance.paretovariate(1.3) - 0.9 for _ in range(shape.services)))
        sizes = [1] * shape.services
        while (more := shape.processes - sum(sizes)) > 0:
            for s in chance.choices(range(shape.services), cum_weights=weights, k=more):
                sizes[s] = min(sizes[s] + 1, most)
        self.sizes = sizes
        self.services = [s for s, size in enumerate(sizes) for _ in range(size)]
        chance.shuffle(self.services)

    def make_requirements(self):
        """What each process requires: alike for one service, or nearly. Scaled so that as much is in use as should be."""
        chance = self.chance
        kinds = []
        for count in self.sizes:
            size = chance.gauss(0, 1) - 0.2 * math.log(count)
            row = [math.exp(1.1 * size + 0.5 * chance.gauss(0, 1)) * (r == self.scarcest or chance.random() < 0.85)
                   for r in self.resources]
            kinds.append((row, chance.choice((0, 0.2, 0.6))))
        rows = []
        for s in self.services:
            row, differ = kinds[s]
            by = math.exp(differ * chance.gauss(0, 1))
            rows.append([by * number for number in row])
        columns = [self.scaled(r, list(column)) for r, column in enumerate(zip(*rows))]
        self.requirements = list(map(list, zip(*columns)))

    def scaled(self, r, column):
        """What the processes require of a resource, in whole numbers."""
        total = self.used[r] * sum(row[r] for row in self.capacities)
        most = LARGEST * min(row[r] for row in self.capacities)
        for _ in range(20):
            by = total / max(sum(column), 1e-9)
            column = [min(by * number, most) for number in column]
        return list(map(round, column))

    def place(self):
        """The machine of each process, and the room that is left."""
        shape, chance = self.shape, self.chance
        self.room = [list(row) for row in self.capacities]
        held = [chance.uniform(0, MOST_HELD) for _ in self.capacities]
        self.open = [[number - int(share * number) for number in row] for share, row in zip(held, self.capacities)]
        self.at = [set() for _ in range(shape.services)]
        self.start = [0] * shape.processes
        popular = list(accumulate(row[self.scarcest] * math.exp(chance.gauss(0, 0.4)) for row in self.capacities))
        least = [min(row[r] for row in self.capacities) for r in self.resources]
        share = [max(number / most for number, most in zip(row, least)) for row in self.requirements]
        for p in sorted(range(shape.processes), key=share.__getitem__, reverse=True):
            m = self.machine_for(p, popular)
            self.start[p] = m
            self.at[self.services[p]].add(m)
            for rows in (self.room, self.open):
                rows[m] = [room - number for room, number in zip(rows[m], self.requirements[p])]

    def machine_for(self, p, popular):
        """A machine for a process, which gets smaller if none has room for it."""
        chance, every = self.chance, range(self.shape.machines)
        row, taken = self.requirements[p], self.at[self.services[p]]
        first = chance.randrange(len(every))
        for some, room in ((chance.choices(every, cum_weights=popular, k=POPULAR), self.open), (chance.choices(every, k=ANY), self.open),
                           ([*every[first:], *every[:first]], self.room)):
            for m in some:
                if m not in taken and all(map(int.__le__, row, room[m])):
                    return m
        free = [m for m in every if m not in taken]
        m = max(chance.sample(free, min(ANY, len(free))), key=lambda m: min(map(fits, self.room[m], row)))
        row[:] = map(min, row, self.room[m])
        return m

    def make_safeties(self):
        """Safety capacities near the average use of a class."""
        chance = self.chance
        near = [chance.uniform(0.9, 1.05) for _ in self.resources]
        totals = [sum(row[r] for row in self.capacities) for r in self.resources]
        spare = [sum(row[r] for row in self.room) for r in self.resources]
        average = [1 - left / total for left, total in zip(spare, totals)]
        classes = [[by * share * chance.uniform(0.95, 1.05) for by, share in zip(near, average)] for _ in range(max(self.classes) + 1)]
        self.safeties = [[min(most, round(by * most)) for by, most in zip(classes[number], row)]
                         for number, row in zip(self.classes, self.capacities)]
        self.spare = spare

    def make_dependencies(self):
        """As many as there should be: each of a service on a larger one, as a rule, that stands in each of its neighbourhoods."""
        shape, chance = self.shape, self.chance
        hoods = [sum(1 << hood for hood in {self.neighbourhoods[m] for m in own}) for own in self.at]
        large = list(accumulate(len(own) ** 1.5 for own in self.at))
        every = range(shape.services)
        self.needs = [[] for _ in every]
        left = shape.dependencies
        while left > 0:
            for a, b in zip(chance.choices(every, k=shape.dependencies), chance.choices(every, cum_weights=large, k=shape.dependencies)):
                if left > 0 and a != b and not hoods[a] & ~hoods[b] and b not in self.needs[a]:
                    self.needs[a].append(b)
                    left -= 1

    def model_lines(self):
        """The lines of the model."""
        shape, chance = self.shape, self.chance
        transient = chance.sample(self.resources, shape.transient)
        yield str(shape.resources)
        for r in self.resources:
            yield f"{int(r in transient)} {chance.choice((10, 10, 20, 50, 100))}"
        yield str(shape.machines)
        ways = self.way_rows()
        for m, location in enumerate(self.locations):
            yield f"{self.neighbourhoods[m]} {location} {joined(self.capacities[m])} {joined(self.safeties[m])} {ways[location]}"
        yield str(shape.services)
        for own, needs in zip(self.at, self.needs):
            has = len({self.locations[m] for m in own})
            yield joined([max(1, round(has * chance.choice((0, 0.3, 0.6, 1)))), len(needs), *needs])
        yield str(shape.processes)
        for s, row in zip(self.services, self.requirements):
            yield joined([s, *row, min(1_000, int(chance.paretovariate(1)))])
        yield str(shape.balances)
        for _ in range(shape.balances):
            yield joined(self.balance())
            yield str(chance.choice((1, 10)))
        yield "1 10 100"

    def way_rows(self):
        """The ways from a machine of each location: by how far apart two places of a square are."""
        chance = self.chance
        places = [(chance.random(), chance.random()) for _ in range(self.shape.locations)]
        far = max(math.dist(a, b) for a in places for b in places) or 1
        rows = []
        for a in places:
            costs = [str(0 if a == b else max(1, round(LARGEST_WAY * math.dist(a, b) / far))) for b in places]
            rows.append(" ".join(costs[location] for location in self.locations))
        return rows

    def balance(self):
        """Two resources and a target that leaves them nearly balanced over all machines."""
        one, two = sorted(self.chance.sample(self.resources, 2), key=self.spare.__getitem__)
        return one, two, max(1, round(self.spare[two] / max(1, self.spare[one])))


def fits(room, number):
    """How many times a number fits into a room, at most once."""
    return min(1, room / number) if number else 1


def spread_labels(chance, count, labels):
    """Labels from 0 on, each as often as the others or once more, in any order."""
    every = [number % labels for number in range(count)]
    chance.shuffle(every)
    return every


def make(folder, name, seed):
    made = Made(SHAPES[name], random.Random(f"{name} {seed}"))
    os.makedirs(folder, exist_ok=True)
    write_list(folder, "model", made.model_lines())
    write_list(folder, "initial", [joined(made.start)])


def main():
    words = sys.argv[1:]
    if words in (["-h"], ["--help"]):
        print(__doc__.strip())
        return 0
    if len(words) != 3 or words[0].startswith("-") or words[1] not in SHAPES or not (words[2].isascii() and words[2].isdigit()):
        print(f"usage: make_shapes.py FOLDER SHAPE SEED   (SHAPE: {', '.join(SHAPES)})", file=sys.stderr)
        return 2
    try:
        make(words[0], words[1], int(words[2]))
    except OSError as fault:
        print(f"make_shapes.py: {fault}", file=sys.stderr)
        return 1
    except KeyboardInterrupt:
        print("make_shapes.py: interrupted", file=sys.stderr)
        return 130
    return 0


if __name__ == "__main__":
    sys.exit(main())
