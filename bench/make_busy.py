#!/usr/bin/env python3
"""Makes an instance where proposals end in every way, with a feasible start and a list of closed machines.

usage: make_busy.py FOLDER MACHINES PROCESSES RESOURCES SEED

Writes FOLDER/model, FOLDER/initial, FOLDER/new and FOLDER/closed. The new list is the start. The same words make the same
files.

make_instance.py makes instances at rest: their start costs what the bound says. Here machines are full to different parts,
so some moves lower the cost and most don't fit. Processes have requirements of very different sizes. Most services are
small and a few have a hundred processes. Two of five services depend on others, a third of them has no location to spare,
a third of the resources is transient, and every 37th machine is closed.

There are 3 to 5,000 machines, 3 to 50,000 processes and 1 to 20 resources. Needs python3 alone.
"""
import os
import random
import sys
from math import isqrt

from make_instance import joined, write_list

CLOSED = 37
WAYS = 50_000


def sizes_of(services, processes, most):
    """How many processes each service has: one, and then one, a few or many more at a time."""
    sizes, left = [1] * services, processes - services
    while left > 0:
        s, kind = random.randrange(services), random.random()
        more = random.randint(20, 120) if kind < 0.01 else random.randint(3, 10) if kind < 0.1 else 1
        more = max(0, min(more, left, most - sizes[s]))
        sizes[s] += more
        left -= more
    return sizes


def places_of(owners, machines):
    """A machine for each process. No two of a service have the same."""
    taken, start = set(), []
    for s in owners:
        m = random.randrange(machines)
        while (s, m) in taken:
            m = random.randrange(machines)
        taken.add((s, m))
        start.append(m)
    return start


def labels_of(owners, start, services, label):
    """The different labels of the machines of each service."""
    labels = [set() for _ in range(services)]
    for s, m in zip(owners, start):
        labels[s].add(label(m))
    return labels


def needs_of(hoods, wanted):
    """On which services each one depends: on some that stand in each of its neighbourhoods."""
    near = {}
    for s, own in enumerate(hoods):
        for hood in own:
            near.setdefault(hood, []).append(s)
    needs = [[] for _ in hoods]
    asking = [s for s in range(len(hoods)) if s % 5 < 2]
    for _ in range(20 * wanted):
        s = random.choice(asking)
        other = random.choice(near[min(hoods[s])])
        if wanted > 0 and other != s and other not in needs[s] and hoods[s] <= hoods[other]:
            needs[s].append(other)
            wanted -= 1
    return needs


def ways_of(machines, locations):
    """The ways from each machine, as words: short ones within a location."""
    far = [str(random.randint(10, 299)) for _ in range(WAYS)]
    near = [str(random.randint(1, 5)) for _ in range(WAYS)]
    for m in range(machines):
        first, place = random.randrange(WAYS - machines), m % locations
        row = far[first:first + machines]
        row[place::locations] = near[first:first + len(range(place, machines, locations))]
        row[m] = "0"
        yield " ".join(row)


def machine_lines(use, hood, locations):
    """A line for each machine, whose uses are from half to nearly all of its capacities."""
    for m, (used, ways) in enumerate(zip(use, ways_of(len(use), locations))):
        full = random.randint(55, 92)
        capacity = [100 * number // min(full + random.randrange(10), 97) + 200 for number in used]
        safety = [number * random.randint(60, 85) // 100 for number in capacity]
        yield f"{hood(m)} {m % locations} {joined(capacity)} {joined(safety)} {ways}"


def model_lines(owners, start, services, machines, resources):
    """The lines of a model in which the start breaks nothing."""
    hoods, locations = isqrt(machines), min(machines, 2 * isqrt(machines))
    hood = lambda m: m * hoods // machines
    required = [[random.randint(1, 10 << random.randrange(10)) for _ in range(resources)] for _ in owners]
    use = [[0] * resources for _ in range(machines)]
    for m, numbers in zip(start, required):
        use[m] = [a + b for a, b in zip(use[m], numbers)]
    needs = needs_of(labels_of(owners, start, services, hood), services * 3 // 2)
    places = labels_of(owners, start, services, lambda m: m % locations)

    yield str(resources)
    for r in range(resources):
        yield f"{int(3 * r < resources)} {(10, 10, 100)[r % 3]}"
    yield str(machines)
    yield from machine_lines(use, hood, locations)
    yield str(services)
    for own, needed in zip(places, needs):
        spread = random.choice([len(own), random.randint(1, len(own)), random.randint(1, len(own))])
        yield joined([spread, len(needed), *needed])
    yield str(len(owners))
    for s, numbers in zip(owners, required):
        yield joined([s, *numbers, random.randint(1, 100)])
    yield "1"
    yield f"0 {1 % resources} 2"
    yield "10"
    yield "1 10 100"


def make(folder, machines, processes, resources, seed):
    random.seed(seed)
    os.makedirs(folder, exist_ok=True)
    services = max(1, 2 * processes // 5, -(-2 * processes // machines))
    sizes = sizes_of(services, processes, max(1, machines // 2))
    owners = [s for s, size in enumerate(sizes) for _ in range(size)]
    random.shuffle(owners)
    start = places_of(owners, machines)
    write_list(folder, "model", model_lines(owners, start, services, machines, resources))
    write_list(folder, "closed", range(0, machines, CLOSED))
    for name in ("new", "initial"):
        write_list(folder, name, [joined(start)])


def main():
    words = sys.argv[1:]
    if words in (["-h"], ["--help"]):
        print(__doc__.strip())
        return 0
    numbers = [int(word) if word.isascii() and word.isdigit() else -1 for word in words[1:]]
    limits = ((3, 5_000), (3, 50_000), (1, 20), (0, 10**20))
    in_range = [least <= number <= most for number, (least, most) in zip(numbers, limits)]
    if len(words) != 5 or not all(in_range) or words[0].startswith("-"):
        print("usage: make_busy.py FOLDER MACHINES PROCESSES RESOURCES SEED   (3 to 5,000 machines, 3 to 50,000 processes, "
              "1 to 20 resources)", file=sys.stderr)
        return 2
    try:
        make(words[0], *numbers)
    except OSError as fault:
        print(f"make_busy.py: {fault}", file=sys.stderr)
        return 1
    except KeyboardInterrupt:
        print("make_busy.py: interrupted", file=sys.stderr)
        return 130
    return 0


if __name__ == "__main__":
    sys.exit(main())
