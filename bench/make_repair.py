#!/usr/bin/env python3
"""Makes an instance and a start that no repair can mend, so that a run of `repair` makes all its tries.

usage: make_repair.py FOLDER MACHINES PROCESSES SIZE

Writes FOLDER/model and FOLDER/initial. SIZE is how many processes a service has: 4, say, or as many as there are processes.
Processes go round the machines. Each service depends on the one before it, and all machines are of one neighbourhood. The
first resource is transient, and machine 0 has none of it: what its processes require stays in use there for ever. The same
words make the same files. Needs python3 alone.
"""
import os
import random
import sys

RESOURCES = 3


def model_lines(machines, processes, size):
    """The lines of the model."""
    draw = random.Random(1)
    services = [p // size for p in range(processes)]
    count = services[-1] + 1
    yield str(RESOURCES)
    for r in range(RESOURCES):
        yield f"{int(r == 0)} 10"
    yield str(machines)
    ways = [draw.randrange(100) for _ in range(machines)]
    for m in range(machines):
        capacities = [0 if m == 0 and r == 0 else 1_000_000 for r in range(RESOURCES)]
        safeties = [capacity // 2 for capacity in capacities]
        yield " ".join(map(str, [0, m % 50, *capacities, *safeties, *ways[m:], *ways[:m]]))
    yield str(count)
    for s in range(count):
        yield f"1 1 {s - 1}" if s else "1 0"
    yield str(processes)
    for p in range(processes):
        yield " ".join(map(str, [services[p], *(draw.randrange(1, 100) for _ in range(RESOURCES)), draw.randrange(1000)]))
    yield "0"
    yield "1 1 1"


def main():
    if sys.argv[1:] in (["-h"], ["--help"]):
        sys.exit(print(__doc__.strip()))
    if len(sys.argv) != 5 or not all(word.isdigit() and int(word) for word in sys.argv[2:]):
        print("usage: make_repair.py FOLDER MACHINES PROCESSES SIZE", file=sys.stderr)
        sys.exit(2)
    folder, (machines, processes, size) = sys.argv[1], map(int, sys.argv[2:])
    os.makedirs(folder, exist_ok=True)
    with open(os.path.join(folder, "model"), "w", encoding="ascii") as out:
        out.writelines(f"{line}\n" for line in model_lines(machines, processes, size))
    with open(os.path.join(folder, "initial"), "w", encoding="ascii") as out:
        out.write(" ".join(str(p % machines) for p in range(processes)) + "\n")


main()
