"""Makes an instance whose processes are pinned round after round.

usage: make_pinned.py FOLDER MACHINES PROCESSES RESOURCES

Writes FOLDER/model, FOLDER/initial and FOLDER/closed. On each machine start PROCESSES / MACHINES processes, one for each
resource; if there are more than resources, the others require nothing. Each machine is full: machine m has m + 1 of each
resource, and its processes require that. So those of the last machine fit nowhere else and are pinned in the first round;
then those of the machine before it, which could only go there, and so on: as many rounds as there are machines. The closed
list names all machines but the last: with it there are two rounds.
"""
import os
import sys


def main():
    if sys.argv[1:] in (["-h"], ["--help"]):
        sys.exit(print(__doc__.strip()))
    if len(sys.argv) != 5 or not all(word.isdigit() and int(word) for word in sys.argv[2:]):
        print("usage: make_pinned.py FOLDER MACHINES PROCESSES RESOURCES", file=sys.stderr)
        sys.exit(2)
    folder, machines, processes, resources = sys.argv[1], *map(int, sys.argv[2:5])
    os.makedirs(folder, exist_ok=True)
    each = processes // machines
    size = 4
    with open(os.path.join(folder, "model"), "w") as out:
        line = lambda *words: out.write(" ".join(map(str, words)) + "\n")
        line(resources)
        for _ in range(resources):
            line(0, 1)
        line(machines)
        for m in range(machines):
            costs = [0 if m == b else 1 + (37 * m + b) % 500 for b in range(machines)]
            line(m // 20, m, *[m + 1] * resources, *[3 * (m + 1) // 4] * resources, *costs)
        services = (machines + size - 1) // size * each
        line(services)
        for _ in range(services):
            line(1, 0)
        line(machines * each)
        for m in range(machines):
            for k in range(each):
                line(m // size * each + k, *[m + 1 if r == k else 0 for r in range(resources)], 1)
        line(0)
        line(1, 10, 1)
    with open(os.path.join(folder, "initial"), "w") as out:
        out.write(" ".join(str(m) for m in range(machines) for _ in range(each)) + "\n")
    with open(os.path.join(folder, "closed"), "w") as out:
        out.write(" ".join(map(str, range(machines - 1))) + "\n")


main()
