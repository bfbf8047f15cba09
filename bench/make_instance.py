#!/usr/bin/env python3
"""Makes a challenge-shaped instance and a feasible start.

usage: make_instance.py FOLDER MACHINES PROCESSES RESOURCES SEED [skewed]

Writes FOLDER/model, FOLDER/initial and FOLDER/new. The start puts the processes of a service on different machines, and
breaks no constraint: each capacity is above the start's use, each service stands in as many locations as it wants, and a
dependency is on a service that is near at the start; if none is, it is left out. The new list is the start. The same
words make the same files.

With `skewed` the machines are alike and every other one starts with three times the load of its neighbour, above its
safety capacity, which is the average use: so many moves lower the cost. Without it the start costs what the bound says.

There are 1 to 5,000 machines, 1 to 50,000 processes and 1 to 20 resources. Needs python3 alone.
"""
import os
import random
import sys

# How many processes a service has, and how many machines a neighbourhood and locations there are.
SIZE, NEAR, LOCATIONS = 4, 20, 50
WAYS = 500


def services_of(machines, processes):
    """The service of each process: as many as SIZE in each, and the last takes the rest, if there are machines for all."""
    size = min(SIZE, machines)
    count = max(1, processes // size)
    if processes - size * (count - 1) > machines:
        count += 1
    return [min(p // size, count - 1) for p in range(processes)], count


def near_services(hoods, ahead):
    """For each fifth service another one that stands in each of its neighbourhoods: the one that is so many numbers
    ahead, or else the next one that does, or none."""
    count, same = len(hoods), {}
    for s, hood in enumerate(hoods):
        same.setdefault(hood, []).append(s)
    needs = [[] for _ in hoods]
    for s in range(0, count, 5):
        first = (s + ahead) % count
        if hoods[s] <= hoods[first]:
            needs[s] = [first]
        else:
            others = [t for t in same[hoods[s]] if t != s]
            needs[s] = others and [min(others, key=lambda t: (t - first) % count)]
    return needs


def write_list(folder, name, lines):
    """Writes a file beside its place, and puts it there when it is whole."""
    beside = os.path.join(folder, f"{name}.part")
    try:
        with open(beside, "w", encoding="ascii") as out:
            out.writelines(f"{line}\n" for line in lines)
        os.replace(beside, os.path.join(folder, name))
    except BaseException:
        if os.path.exists(beside):
            os.remove(beside)
        raise


def joined(words):
    return " ".join(map(str, words))


def model_lines(start, need, machines, resources, skewed):
    """The lines of a model in which the start breaks nothing. Each number is drawn in the order of the lines."""
    use = [[0] * resources for _ in range(machines)]
    for m, required in zip(start, need):
        for r, number in enumerate(required):
            use[m][r] += number
    columns = list(zip(*use))
    most = [max(column) + 400 for column in columns]
    average = [sum(column) // machines for column in columns]
    services, count = services_of(machines, len(start))
    at = [set() for _ in range(count)]
    for m, s in zip(start, services):
        at[s].add(m)
    needs = near_services([frozenset(m // NEAR for m in own) for own in at], machines // SIZE)

    yield str(resources)
    for r in range(resources):
        yield f"{1 if r < resources // 2 else 0} 10"
    yield str(machines)
    ways = [str(1 + way % WAYS) for way in range(machines + WAYS)]
    for m in range(machines):
        capacity = [used + 400 + random.randint(0, 200) for used in use[m]]
        safety = [3 * number // 4 for number in capacity]
        if skewed:
            capacity, safety = most, average
        first = 37 * m % WAYS
        row = ways[first:first + machines]
        row[m] = "0"
        yield f"{m // NEAR} {m % LOCATIONS} {joined(capacity)} {joined(safety)} {' '.join(row)}"
    yield str(count)
    for own, needed in zip(at, needs):
        spread = min(1 + random.randint(0, 2), len({m % LOCATIONS for m in own}))
        yield joined([spread, len(needed), *needed])
    yield str(len(start))
    for s, required in zip(services, need):
        yield joined([s, *required, random.randint(1, 10)])
    yield "1"
    yield f"0 {1 % resources} 2"
    yield "10"
    yield f"1 10 {1 if skewed else 100}"


def make(folder, machines, processes, resources, seed, skewed):
    random.seed(seed)
    os.makedirs(folder, exist_ok=True)
    start = [p % machines for p in range(processes)]
    weight = [3 if skewed and m % 2 == 0 else 1 for m in start]
    need = [[w * random.randint(1, 100) for _ in range(resources)] for w in weight]
    write_list(folder, "model", model_lines(start, need, machines, resources, skewed))
    for name in ("initial", "new"):
        write_list(folder, name, [joined(start)])


def main():
    words = sys.argv[1:]
    if words in (["-h"], ["--help"]):
        print(__doc__.strip())
        return 0
    limits = (5_000, 50_000, 20, 10**20)
    numbers = [int(word) if word.isascii() and word.isdigit() else -1 for word in words[1:5]]
    in_range = [least <= number <= most for number, least, most in zip(numbers, (1, 1, 1, 0), limits)]
    if len(words) not in (5, 6) or not all(in_range) or words[5:] not in ([], ["skewed"]) or words[0].startswith("-"):
        print("usage: make_instance.py FOLDER MACHINES PROCESSES RESOURCES SEED [skewed]   (1 to 5,000 machines, 1 to "
              "50,000 processes, 1 to 20 resources)", file=sys.stderr)
        return 2
    try:
        make(words[0], *numbers, words[5:] == ["skewed"])
    except OSError as fault:
        print(f"make_instance.py: {fault}", file=sys.stderr)
        return 1
    except KeyboardInterrupt:
        print("make_instance.py: interrupted", file=sys.stderr)
        return 130
    return 0


if __name__ == "__main__":
    sys.exit(main())
