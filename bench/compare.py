#!/usr/bin/env python3
"""Compares the program with a second implementation of docs/PROBLEM.md and docs/FORMATS.md, which stands in this file.

Makes small random instances and lists, runs `bound`, `check` and `solve` on them, and compares the status and every
byte of both outputs. The order of the entries of several workers is taken from the report, and judged. It stops at the
first difference, says on what it was, and leaves the files there.

With --plain it compares the program with the one of bench/plain, which cargo builds, and instances may be larger: of each
job with one lot or none the status and every byte. Of several lots `verify` has to accept both reports, and so has
judge_report.py if the instance is small. A thousand instances take about a minute.

usage: compare.py [--plain] PROGRAM FIRST_SEED INSTANCES
"""
import os
import random
import shutil
import subprocess
import sys
import tempfile
from collections import Counter
from dataclasses import dataclass

from building import plain_program

LARGEST_WORD = 2**64 - 1
LABELS = [0, 1, 7, 4294967295]


@dataclass
class Instance:
    transient: list
    load_weights: list
    neighbourhoods: list
    locations: list
    capacities: list
    safeties: list
    way_costs: list
    spreads: list
    dependencies: list
    services: list
    requirements: list
    process_costs: list
    balances: list
    weights: list
    closed: list

    def text(self):
        """The model file."""
        numbers = [len(self.transient)]
        for transient, weight in zip(self.transient, self.load_weights):
            numbers += [transient, weight]
        numbers.append(len(self.locations))
        for m in range(len(self.locations)):
            numbers += [self.neighbourhoods[m], self.locations[m]]
            numbers += self.capacities[m] + self.safeties[m] + self.way_costs[m]
        numbers.append(len(self.spreads))
        for spread, needs in zip(self.spreads, self.dependencies):
            numbers += [spread, len(needs)] + needs
        numbers.append(len(self.services))
        for p, service in enumerate(self.services):
            numbers += [service] + self.requirements[p] + [self.process_costs[p]]
        numbers.append(len(self.balances))
        for balance in self.balances:
            numbers += balance
        return joined(numbers + self.weights)

    def use(self, machines, m, r):
        return sum(self.requirements[p][r] for p, at in enumerate(machines) if at == m)

    def transient_use(self, start, machines, m, r):
        return sum(
            self.requirements[p][r]
            for p, at in enumerate(machines)
            if at == m or start[p] == m
        )

    def machines_of(self, service, machines):
        return [at for p, at in enumerate(machines) if self.services[p] == service]

    def broken(self, start, machines):
        """The text of the first broken constraint, or None."""
        places = [
            (m, r)
            for m in range(len(self.locations))
            for r in range(len(self.transient))
        ]
        for m, r in places:
            used = self.use(machines, m, r)
            if used > self.capacities[m][r]:
                return f"capacity {m} {r} {used} {self.capacities[m][r]}"
        for m, r in places:
            used = self.transient_use(start, machines, m, r)
            if self.transient[r] and used > self.capacities[m][r]:
                return f"transient {m} {r} {used} {self.capacities[m][r]}"
        for s in range(len(self.spreads)):
            own = self.machines_of(s, machines)
            twice = [m for m in own if own.count(m) > 1]
            if twice:
                return f"conflict {s} {min(twice)}"
        for s, wants in enumerate(self.spreads):
            has = len({self.locations[m] for m in self.machines_of(s, machines)})
            if has < wants:
                return f"spread {s} {has} {wants}"
        for s, needs in enumerate(self.dependencies):
            for needed in needs:
                near = {
                    self.neighbourhoods[m] for m in self.machines_of(needed, machines)
                }
                for m in self.machines_of(s, machines):
                    if self.neighbourhoods[m] not in near:
                        return f"dependency {s} {needed} {self.neighbourhoods[m]}"
        for p, m in enumerate(machines):
            if self.closed[m] and m != start[p]:
                return f"closed {p} {m}"
        return None

    def parts(self, start, machines):
        """The objective and its five parts."""
        every = range(len(self.locations))
        moved = [p for p, m in enumerate(machines) if m != start[p]]
        load = sum(
            weight
            * sum(max(0, self.use(machines, m, r) - self.safeties[m][r]) for m in every)
            for r, weight in enumerate(self.load_weights)
        )

        def available(m, r):
            return self.capacities[m][r] - self.use(machines, m, r)

        balance = sum(
            weight
            * sum(max(0, target * available(m, one) - available(m, two)) for m in every)
            for one, two, target, weight in self.balances
        )
        process = self.weights[0] * sum(self.process_costs[p] for p in moved)
        most = max(Counter(self.services[p] for p in moved).values(), default=0)
        service = self.weights[1] * most
        machine = self.weights[2] * sum(
            self.way_costs[start[p]][m] for p, m in enumerate(machines)
        )
        parts = [load, balance, process, service, machine]
        return [sum(parts)] + parts

    def blocked(self, start, pinned, p, m):
        """Whether process p is blocked from machine m, which isn't its own, by what is known to stay."""
        here = [z for z, at in enumerate(start) if at == m]
        stay = [z for z in here if pinned[z]]
        return (
            self.closed[m]
            or any(self.services[z] == self.services[p] for z in stay)
            or any(
                sum(self.requirements[z][r] for z in (here if transient else stay))
                + self.requirements[p][r]
                > self.capacities[m][r]
                for r, transient in enumerate(self.transient)
            )
        )

    def pinned(self, start):
        """Whether each process is blocked from every other machine, round after round."""
        every = range(len(self.locations))
        pinned = [False] * len(start)
        for _ in start:
            pinned = [
                stays or all(m == home or self.blocked(start, pinned, p, m) for m in every)
                for p, (stays, home) in enumerate(zip(pinned, start))
            ]
        return pinned

    def bound(self, start=None):
        """The lower bound and its two parts; with a start what is pinned counts on its machine."""
        every = range(len(self.transient))
        required = [sum(row[r] for row in self.requirements) for r in every]
        safe = [sum(row[r] for row in self.safeties) for r in every]
        spare = [sum(row[r] for row in self.capacities) - required[r] for r in every]
        over = [max(0, required[r] - safe[r]) for r in every]
        if start is not None:
            stay = [m if stays else None for m, stays in zip(start, self.pinned(start))]
            over = [
                max(
                    over[r],
                    sum(
                        max(0, self.use(stay, m, r) - self.safeties[m][r])
                        for m in range(len(self.locations))
                    ),
                )
                for r in every
            ]
        load = sum(weight * over[r] for r, weight in enumerate(self.load_weights))
        balance = sum(
            weight * max(0, target * spare[one] - spare[two])
            for one, two, target, weight in self.balances
        )
        return [load + balance, load, balance]


def joined(numbers, between=" "):
    return between.join(str(number) for number in numbers)


def lines(names, numbers):
    return "".join(f"{name} {number}\n" for name, number in zip(names, numbers))


def cost_lines(parts):
    return lines(["cost", "load", "balance", "process", "service", "machine"], parts)


def words_of_seed(seed):
    """The stream of xoshiro256++, whose state is four words of splitmix64."""

    def turned(word, by):
        return (word << by | word >> (64 - by)) & LARGEST_WORD

    state = []
    for _ in range(4):
        seed = (seed + 0x9E3779B97F4A7C15) & LARGEST_WORD
        word = ((seed ^ seed >> 30) * 0xBF58476D1CE4E5B9) & LARGEST_WORD
        word = ((word ^ word >> 27) * 0x94D049BB133111EB) & LARGEST_WORD
        state.append(word ^ word >> 31)
    while True:
        a, b, c, d = state
        yield (turned((a + d) & LARGEST_WORD, 23) + a) & LARGEST_WORD
        shifted = b << 17 & LARGEST_WORD
        c ^= a
        d ^= b
        state = [a ^ d, b ^ c, c ^ shifted, turned(d, 45)]


def options(inst, at, words, drawing):
    """The kind of a proposal, and its moves as lists of (process, from, to)."""
    machines = len(inst.locations)
    p, q, r = (words[k] % len(at) for k in (1, 2, 3))
    kind = words[0] % 8
    if kind <= 4 and drawing == 1:
        return "shift", [[(p, at[p], word % machines)] for word in words[2:6]]
    if kind <= 4:
        window = range(min(64, machines))
        return "shift", [
            [(p, at[p], (words[2] % machines + i) % machines)] for i in window
        ]
    if kind <= 6:
        others = [word % len(at) for word in words[2:6]]
        return "swap", [
            [(p, at[p], at[other]), (other, at[other], at[p])] for other in others
        ]
    return "chain", [
        [(p, at[p], at[q]), (q, at[q], at[r]), (r, at[r], words[4] % machines)]
    ]


def after(at, move):
    moved = list(at)
    for process, _, to in move:
        moved[process] = to
    return moved


def judge(inst, start, at, move, allowed):
    """Whether the move is done, and the new cost or the cause."""
    processes = [process for process, _, _ in move]
    for k, process in enumerate(processes):
        if process in processes[:k]:
            return False, f"repeat {process}"
    for process, left, entered in move:
        if left == entered:
            return False, f"same {process}"
    cause = inst.broken(start, after(at, move))
    if cause:
        return False, cause
    before, cost = (inst.parts(start, a)[0] for a in (at, after(at, move)))
    if cost > before + allowed:
        return False, f"rise {before} {cost} {allowed}"
    return True, cost


def guards(inst, move):
    """The write guards of a move, and all its guards."""
    services = {inst.services[process] for process, _, _ in move}
    needed = {need for service in services for need in inst.dependencies[service]}
    needing = {s for s, needs in enumerate(inst.dependencies) if services & set(needs)}
    machines = {("machine", m) for _, left, entered in move for m in (left, entered)}
    writes = machines | {("service", s) for s in services}
    return writes, writes | {("service", s) for s in needed | needing}


def planned(inst, start, at, words, drawing, allowed):
    """The kind of a proposal and its move, planned at a list."""
    kind, moves = options(inst, at, words, drawing)
    verdicts = [judge(inst, start, at, move, allowed) for move in moves]
    done = [i for i, (is_done, _) in enumerate(verdicts) if is_done]
    return kind, moves[min(done, key=lambda i: (verdicts[i][1], i), default=0)]


def journal(inst, start, slack, drawing, lots, order):
    """The states and the lines of the journal whose entries are of these workers, and were planned at these places."""
    states, told, touched = [start], [], []
    made, behind = [0] * len(lots), [0] * len(lots)
    for place, (worker, q) in enumerate(order):
        k, budget = made[worker], len(lots[worker])
        if not (k < budget and behind[worker] <= q <= place):
            raise ValueError(f"no worker can have handed in entry {place}")
        allowed = slack * (budget - 1 - k) // budget
        kind, move = planned(inst, start, states[q], lots[worker][k], drawing, allowed)
        writes, every = guards(inst, move)
        if any(every & newer for newer in touched[q:]):
            raise ValueError(f"a guard of entry {place} was touched after it was planned")
        is_done, verdict = judge(inst, start, states[place], move, allowed)
        steps = joined(f"{p}:{left}>{entered}" for p, left, entered in move)
        verdict = f"{'done' if is_done else 'refused'} {verdict}"
        told.append(f"{place} {worker} {k} {q} {kind} {steps} {verdict}\n")
        states.append(after(states[place], move) if is_done else states[place])
        touched.append(writes if is_done else set())
        made[worker], behind[worker] = k + 1, place + 1
    if made != [len(lot) for lot in lots]:
        raise ValueError("not all proposals have an entry")
    return states, told


def order_of(printed):
    """The worker of each entry that a report tells, and the place where it was planned."""
    entries = [line.split() for line in printed.splitlines()[10:]]
    return [(int(entry[1]), int(entry[3])) for entry in entries]


def report(inst, start, slack, drawing, lots, order):
    """The report of a run in this order, where each lot has eight words for each of its proposals."""
    states, told = journal(inst, start, slack, drawing, lots, order)
    costs = [inst.parts(start, at)[0] for at in states]
    best_at = costs.index(min(costs))
    head = cost_lines(inst.parts(start, states[best_at]))
    head += f"bound {inst.bound(start)[0]}\nbest_at {best_at}\n"
    head += f"assignment {joined(states[best_at])}\ndraws {drawing}\n"
    return head + "".join(told)


def random_instance(chance):
    resources, services = chance.randint(1, 3), chance.randint(1, 4)
    machines = chance.choice([1, 2, 3, 4, 5, 6, 70])
    processes, high = chance.randint(1, 8), chance.choice([12, 20, 40])

    def row(count, least, most):
        return [chance.randint(least, most) for _ in range(count)]

    return Instance(
        transient=row(resources, 0, 1),
        load_weights=row(resources, 0, 20),
        neighbourhoods=[chance.choice(LABELS) for _ in range(machines)],
        locations=[chance.choice(LABELS) for _ in range(machines)],
        capacities=[row(resources, 5, high) for _ in range(machines)],
        safeties=[row(resources, 0, high) for _ in range(machines)],
        way_costs=[row(machines, 0, 5) for _ in range(machines)],
        spreads=[chance.choice([0, 0, 1, 1, 2]) for _ in range(services)],
        dependencies=[
            row(chance.choice([0, 0, 0, 1, 2]), 0, services - 1)
            for _ in range(services)
        ],
        services=row(processes, 0, services - 1),
        requirements=[row(resources, 0, 9) for _ in range(processes)],
        process_costs=row(processes, 0, 9),
        balances=[
            row(2, 0, resources - 1) + row(1, 0, 4) + row(1, 0, 9)
            for _ in range(chance.choice([0, 1, 2]))
        ],
        weights=row(3, 0, 5),
        closed=[False] * machines,
    )


def random_start(chance, inst):
    """An initial list, which is feasible where one is found soon."""
    for _ in range(200):
        start = [chance.randrange(len(inst.locations)) for _ in inst.services]
        if inst.broken(start, start) is None:
            break
    return start


def random_lot(chance):
    """The word of a lot, and eight words for each of its proposals."""
    if chance.random() < 0.5:
        seed = chance.choice([0, 1, 7, LARGEST_WORD, chance.getrandbits(64)])
        budget = chance.randint(0, 40)
        stream = words_of_seed(seed)
        return f"{seed}:{budget}", [[next(stream) for _ in range(8)] for _ in range(budget)]
    listed = [
        [chance.choice([chance.randrange(10), chance.getrandbits(64)]) for _ in range(8)]
        for _ in range(chance.randint(1, 10))
    ]
    return "w:" + joined((word for words in listed for word in words), ","), listed


def wanted(inst, start, other, done):
    """The status and both outputs, where `done` gives the output of a job that is done."""
    for name, machines in [("i", start), ("n", other)]:
        cause = inst.broken(start, machines)
        if cause:
            return 6, "", f"infeasible: {name}: {cause}\n"
    return 0, done(), ""


def compare(program, words, wanted_of, kinds):
    """Runs the program; `wanted_of` gives the status and both outputs, from the output that came."""
    ran = subprocess.run([program] + words, capture_output=True, text=True, check=False)
    got = ran.returncode, ran.stdout, ran.stderr
    try:
        want = wanted_of(ran.stdout)
    except (IndexError, ValueError) as fault:
        want = fault
    if got != want:
        sys.exit(f"{joined(words)} in {os.getcwd()}\n  wanted {want}\n  got    {got}")
    for line in (want[1] + want[2]).splitlines():
        if line.startswith("infeasible"):
            kinds[line.split()[2]] += 1
        elif ">" in line:
            kinds["done" if " done " in line else line.split(" refused ")[1].split()[0]] += 1


def write(name, text):
    with open(name, "w", encoding="ascii") as file:
        file.write(text)


def compare_instance(program, chance, kinds):
    inst = random_instance(chance)
    start = random_start(chance, inst)
    write("m", inst.text())
    write("i", joined(start))
    bound = lines(["bound", "load", "balance"], inst.bound())
    compare(program, ["bound", "m"], lambda _: (0, bound, ""), kinds)
    closing = []
    if chance.random() < 0.4:
        closed = [chance.randrange(len(inst.closed)) for _ in range(chance.randint(0, 3))]
        inst.closed = [m in closed for m in range(len(inst.closed))]
        write("c", joined(closed, "\n"))
        closing = ["--closed", "c"]
    from_start = lines(["bound", "load", "balance"], inst.bound(start))
    compare(program, ["bound", "m", "i"] + closing, lambda _: (0, from_start, ""), kinds)
    for _ in range(4):
        new = [chance.choice([m, m, chance.randrange(len(inst.closed))]) for m in start]
        write("n", joined(new, "\n"))
        want = wanted(inst, start, new, lambda: cost_lines(inst.parts(start, new)))
        compare(program, ["check", "m", "i", "n"] + closing, lambda _: want, kinds)
    for _ in range(2):
        slack, drawing = chance.choice([0, 5, 50, 1000, LARGEST_WORD]), chance.choice([1, 2])
        lots = [random_lot(chance) for _ in range(chance.choice([1, 1, 2, 3, 16]))]
        proposals = [listed for _, listed in lots]
        words = ["solve", "m", "i"]
        words += [] if slack == 0 else ["--slack", str(slack)]
        words += closing
        words += [] if drawing == 2 else ["--draws", str(drawing)]

        def run(printed):
            order = order_of(printed)
            return report(inst, start, slack, drawing, proposals, order)

        words += [lot for lot, _ in lots]
        compare(program, words, lambda out: wanted(inst, start, start, lambda: run(out)), kinds)


def large_instance(chance):
    """An instance with up to 300 processes, and a start that breaks nothing. Some numbers may be very large."""
    resources, machines = chance.randint(1, 9), chance.choice([3, 9, 40, 64, 65, 100, 200])
    processes, services = chance.randint(1, 300), chance.randint(1, 80)
    most = chance.choice([1, 20, 20, 20, 2**16, 2**32 - 1])

    def row(count, least, greatest):
        return [chance.randint(least, greatest) for _ in range(count)]

    def weight():
        return chance.choice([0, 1, 10, chance.randint(0, most)])

    owners, start, taken = [], [], set()
    for _ in range(processes):
        s = min(chance.randrange(services), chance.randrange(services))
        free = [m for m in range(machines) if (s, m) not in taken]
        if free:
            owners.append(s)
            start.append(chance.choice(free))
            taken.add((s, start[-1]))
    high = chance.choice([0, 9, 500, 500, min(most, 10**7)])
    required = [row(resources, 0, high) for _ in owners]
    used = [[0] * resources for _ in range(machines)]
    for p, m in enumerate(start):
        used[m] = [a + b for a, b in zip(used[m], required[p])]
    room = chance.choice([1, 2, 5]) * high
    capacities = [[u + chance.randint(0, room) for u in row] for row in used]
    hoods = [chance.choice(LABELS[:chance.randint(1, 4)]) for _ in range(machines)]
    locations = [chance.randrange(1 + machines // 4) for _ in range(machines)]
    of = [[m for m, s in zip(start, owners) if s == service] for service in range(services)]
    near = [{hoods[m] for m in own} for own in of]

    def needs(s):
        drawn = [chance.randrange(services) for _ in range(chance.choice([0, 0, 1, 2, 6]))]
        return [other for other in drawn if near[s] <= near[other]]

    return Instance(
        transient=row(resources, 0, 1),
        load_weights=[weight() for _ in range(resources)],
        neighbourhoods=hoods,
        locations=locations,
        capacities=capacities,
        safeties=[[chance.randint(0, c + 5) for c in row] for row in capacities],
        way_costs=[row(machines, 0, chance.choice([0, 9, 300, most])) for _ in range(machines)],
        spreads=[chance.randint(0, len({locations[m] for m in own})) for own in of],
        dependencies=[needs(s) for s in range(services)],
        services=owners,
        requirements=required,
        process_costs=row(len(owners), 0, most),
        balances=[
            row(2, 0, resources - 1) + [chance.choice([0, 1, 2, most]), weight()]
            for _ in range(chance.choice([0, 1, 2, 10]))
        ],
        weights=[weight() for _ in range(3)],
        closed=[False] * machines,
    ), start


def both(program, plain, words, kinds, judge=None):
    """Runs both programs. Their status has to be the same; so have their bytes, or `judge` has to accept both."""
    own, other = (subprocess.run([it] + words, capture_output=True, text=True, check=False) for it in (program, plain))
    where = f"{joined(words)} in {os.getcwd()}\n"
    if own.returncode != other.returncode or not judge and own.stdout != other.stdout:
        write("out", own.stdout)
        write("out.plain", other.stdout)
        sys.exit(f"{where}  statuses {own.returncode} and {other.returncode}; see out and out.plain there")
    kinds[f"{words[0]} {own.returncode}"] += 1
    for ran in (own, other) if judge and own.returncode == 0 else ():
        write("report", ran.stdout)
        try:
            judge(ran.stdout)
        except (IndexError, KeyError, ValueError) as fault:
            sys.exit(f"{where}  {'the plain ' if ran is other else ''}report isn't accepted: {fault}")


def compare_with_plain(program, plain, chance, kinds):
    """Compares both programs on one instance."""
    from judge_report import judge

    is_small = chance.random() < 0.5
    if is_small:
        inst = random_instance(chance)
        start = random_start(chance, inst)
    else:
        inst, start = large_instance(chance)
    every = range(len(inst.closed))
    write("m", inst.text())
    write("i", joined(start))
    write("c", joined([chance.choice(every) for _ in range(chance.randint(0, 1 + len(every) // 3))], "\n"))
    new = list(start)
    for _ in range(chance.randint(0, 3)):
        new[chance.randrange(len(new))] = chance.choice(every)
    write("n", joined(new, "\n"))
    closing = chance.choice([[], ["--closed", "c"]])
    both(program, plain, ["bound", "m"], kinds)
    both(program, plain, ["bound", "m", "i"] + closing, kinds)
    both(program, plain, ["check", "m", "i", "n"] + closing, kinds)
    if chance.random() < 0.1:
        both(program, plain, ["trial", str(chance.getrandbits(64))], kinds)
    for count in (1, chance.choice([1, 2, 3, 4, 8, 16])):
        slack, drawing = chance.choice([0, 5, 1000, 10**6, LARGEST_WORD]), chance.choice(["1", "2"])
        lots = [random_lot(chance)[0] for _ in range(count)]
        if not is_small and count == 1:
            lots = [f"{chance.getrandbits(64)}:{chance.choice([1, 50, 1000])}"]
        options = chance.choice([[], ["--slack", str(slack)]]) + closing + chance.choice([[], ["--draws", drawing]])
        words = ["m", "i"] + options + lots

        def is_legal(printed):
            told = subprocess.run([program, "verify", "m", "i", "report"] + words[2:], capture_output=True, text=True, check=False)
            if told.returncode != 0:
                raise ValueError(told.stderr.strip())
            if is_small:
                judge("m", "i", dict(zip(options[::2], options[1::2])), lots, printed)

        both(program, plain, ["solve"] + words, kinds, is_legal if count > 1 else None)


USAGE = "usage: compare.py [--plain] PROGRAM FIRST_SEED INSTANCES"


def main():
    words = sys.argv[1:]
    if words in (["-h"], ["--help"]):
        sys.exit(print(__doc__.strip()))
    with_plain = words[:1] == ["--plain"]
    words = words[with_plain:]
    if len(words) != 3 or not all(word.isdigit() for word in words[1:]):
        print(USAGE, file=sys.stderr)
        sys.exit(2)
    if not os.access(words[0], os.X_OK):
        sys.exit(f"compare.py: {words[0]} is no program")
    program, seed, instances = os.path.abspath(words[0]), int(words[1]), int(words[2])
    plain = plain_program() if with_plain else None
    if with_plain and plain is None:
        sys.exit("compare.py: there is no cargo to build the plain program")
    kinds = Counter()
    folder = tempfile.mkdtemp()
    os.chdir(folder)
    for number in range(seed, seed + instances):
        if with_plain:
            compare_with_plain(program, plain, random.Random(number), kinds)
        else:
            compare_instance(program, random.Random(number), kinds)
    shutil.rmtree(folder)
    told = ", ".join(f"{kind} {count}" for kind, count in sorted(kinds.items()))
    met = "commands and statuses" if with_plain else "causes and moves met"
    print(f"{instances} instances, no difference; {met}: {told}")


if __name__ == "__main__":
    main()
