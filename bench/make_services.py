#!/usr/bin/env python3
"""Makes an instance with services of one size and a feasible start, to time proposals by services and dependencies.

usage: make_services.py FOLDER MACHINES PROCESSES SIZE TIMES

Writes FOLDER/model and FOLDER/initial. SIZE is how many processes a service has, at most as many as there are machines. The
second service depends on the first, and its dependency is listed TIMES times. Processes go round the machines, three of which
are a neighbourhood. The same words make the same files. Needs python3 alone.
"""
import os
import random
import sys

RESOURCES = 4


def model_lines(machines, processes, size, times):
    """The lines of the model."""
    draw = random.Random(1)
    services = [p // size for p in range(processes)]
    yield str(RESOURCES)
    for r in range(RESOURCES):
        yield f"{int(r == 0)} 10"
    yield str(machines)
    ways, hoods = [draw.randrange(100) for _ in range(machines)], max(machines // 3, 1)
    for m in range(machines):
        yield " ".join(map(str, [m % hoods, m % 50, *[2000] * RESOURCES, *[900] * RESOURCES, *ways[m:], *ways[:m]]))
    yield str(services[-1] + 1)
    for s in range(services[-1] + 1):
        yield " ".join(map(str, [1, times, *[0] * times] if s == 1 else [1, 0]))
    yield str(processes)
    for p in range(processes):
        yield " ".join(map(str, [services[p], *(draw.randrange(1, 300) for _ in range(RESOURCES)), draw.randrange(1000)]))
    yield "0"
    yield "1 1 1"


def main():
    if sys.argv[1:] in (["-h"], ["--help"]):
        sys.exit(print(__doc__.strip()))
    if len(sys.argv) != 6 or not all(word.isdigit() for word in sys.argv[2:]) or "0" in sys.argv[2:5]:
        print("usage: make_services.py FOLDER MACHINES PROCESSES SIZE TIMES", file=sys.stderr)
        sys.exit(2)
    folder, (machines, processes, size, times) = sys.argv[1], map(int, sys.argv[2:])
    os.makedirs(folder, exist_ok=True)
    with open(os.path.join(folder, "model"), "w", encoding="ascii") as out:
        out.writelines(f"{line}\n" for line in model_lines(machines, processes, size, times))
    with open(os.path.join(folder, "initial"), "w", encoding="ascii") as out:
        out.write(" ".join(str(p % machines) for p in range(processes)) + "\n")


main()
