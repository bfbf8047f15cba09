#!/usr/bin/env python3
"""Judges the report of a run: whether it is one that the words, the model and the initial list allow.

Each entry is planned anew at its place q, the guards of its move are looked up in the entries since then, and it is
judged anew at its own place; then the whole report is made anew, and compared. The rules are those of compare.py; here
the cost and what an option may break are kept by changes, so that tens of thousands of entries on hundreds of machines
take a minute. The costs of the best and of the last state are summed from nothing too.

usage: judge_report.py solve MODEL INITIAL [--slack N] [--closed FILE] [--draws N] LOT ... <REPORT
"""
import re
import sys
from collections import Counter
from itertools import islice

from compare import Instance, cost_lines, guards, joined, options, order_of, words_of_seed


class State:
    """An assignment that breaks nothing, with its usage and its cost."""

    def __init__(self, inst, start):
        self.inst, self.start, self.at = inst, start, list(start)
        every = range(len(inst.transient))
        self.use = [[0] * len(every) for _ in inst.locations]
        for p, m in enumerate(start):
            for r in every:
                self.use[m][r] += inst.requirements[p][r]
        self.transient = [list(row) for row in self.use]
        self.costs = [self.machine_cost(m, row) for m, row in enumerate(self.use)]
        self.moved = [0] * len(inst.spreads)
        self.with_count, self.greatest = Counter(self.moved), 0
        self.cost = inst.parts(start, start)[0]

    def machine_cost(self, m, use):
        """What a machine with this usage adds to the load and the balance cost."""
        inst, capacity = self.inst, self.inst.capacities[m]
        load = sum(
            weight * max(0, used - safe)
            for weight, used, safe in zip(inst.load_weights, use, inst.safeties[m])
        )
        return load + sum(
            weight
            * max(0, target * (capacity[one] - use[one]) - (capacity[two] - use[two]))
            for one, two, target, weight in inst.balances
        )

    def rows_after(self, move):
        """The usage and the transient usage of each machine that a move leaves or enters."""
        use = {m: list(self.use[m]) for _, left, entered in move for m in (left, entered)}
        transient = {m: list(self.transient[m]) for m in use}
        for p, left, entered in move:
            if self.at[p] != left:
                raise ValueError(f"process {p} is not on machine {left}")
            for r, required in enumerate(self.inst.requirements[p]):
                use[left][r] -= required
                use[entered][r] += required
                transient[left][r] -= required if self.start[p] != left else 0
                transient[entered][r] += required if self.start[p] != entered else 0
        return use, transient

    def machines_of(self, service, places):
        return [places.get(p, self.at[p]) for p in self.inst.members[service]]

    def broken(self, move, use, transient):
        """The text of the first constraint that a move breaks, or None: only what it touches can be broken."""
        inst, places = self.inst, {p: entered for p, _, entered in move}
        for m in sorted(use):
            for r, used in enumerate(use[m]):
                if used > inst.capacities[m][r]:
                    return f"capacity {m} {r} {used} {inst.capacities[m][r]}"
        for m in sorted(use):
            for r, used in enumerate(transient[m]):
                if inst.transient[r] and used > inst.capacities[m][r]:
                    return f"transient {m} {r} {used} {inst.capacities[m][r]}"
        services = {inst.services[p] for p in places}
        for s in sorted(services):
            own = self.machines_of(s, places)
            twice = [m for m in own if own.count(m) > 1]
            if twice:
                return f"conflict {s} {min(twice)}"
        for s in sorted(services):
            has = len({inst.locations[m] for m in self.machines_of(s, places)})
            if has < inst.spreads[s]:
                return f"spread {s} {has} {inst.spreads[s]}"
        for s in sorted(services.union(*(inst.needing[s] for s in services))):
            for needed in inst.dependencies[s]:
                near = {inst.neighbourhoods[m] for m in self.machines_of(needed, places)}
                for m in self.machines_of(s, places):
                    if inst.neighbourhoods[m] not in near:
                        return f"dependency {s} {needed} {inst.neighbourhoods[m]}"
        for p in sorted(places):
            if inst.closed[places[p]] and places[p] != self.start[p]:
                return f"closed {p} {places[p]}"
        return None

    def moved_after(self, move):
        """How many processes of each service that a move touches are then not where they started."""
        moved = {}
        for p, left, entered in move:
            s = self.inst.services[p]
            change = (entered != self.start[p]) - (left != self.start[p])
            moved[s] = moved.get(s, self.moved[s]) + change
        return moved

    def greatest_after(self, moved):
        """The greatest moved count where these services have these counts."""
        before = [self.moved[s] for s in moved]
        most = max(self.greatest, *moved.values())
        while most not in moved.values() and before.count(most) == self.with_count[most]:
            most -= 1
        return most

    def cost_after(self, move, use):
        """The objective after a move."""
        inst = self.inst
        cost = self.cost
        for m, row in use.items():
            cost += self.machine_cost(m, row) - self.costs[m]
        for p, left, entered in move:
            home, ways = self.start[p], inst.way_costs[self.start[p]]
            cost += inst.weights[0] * inst.process_costs[p] * ((entered != home) - (left != home))
            cost += inst.weights[2] * (ways[entered] - ways[left])
        greatest = self.greatest_after(self.moved_after(move))
        return cost + inst.weights[1] * (greatest - self.greatest)

    def judge(self, move, allowed):
        """Whether the move is done, and the new cost or the cause."""
        processes = [p for p, _, _ in move]
        for k, p in enumerate(processes):
            if p in processes[:k]:
                return False, f"repeat {p}"
        for p, left, entered in move:
            if left == entered:
                return False, f"same {p}"
        use, transient = self.rows_after(move)
        cause = self.broken(move, use, transient)
        if cause:
            return False, cause
        cost = self.cost_after(move, use)
        if cost > self.cost + allowed:
            return False, f"rise {self.cost} {cost} {allowed}"
        return True, cost

    def make(self, move):
        use, transient = self.rows_after(move)
        self.cost = self.cost_after(move, use)
        moved = self.moved_after(move)
        self.greatest = self.greatest_after(moved)
        for s, count in moved.items():
            self.with_count[self.moved[s]] -= 1
            self.with_count[count] += 1
            self.moved[s] = count
        for m, row in use.items():
            self.use[m], self.transient[m] = row, transient[m]
            self.costs[m] = self.machine_cost(m, row)
        for p, _, entered in move:
            self.at[p] = entered


def planned(state, words, drawing, allowed):
    """The kind of a proposal and its move, planned at a state."""
    kind, moves = options(state.inst, state.at, words, drawing)
    verdicts = [state.judge(move, allowed) for move in moves]
    done = [i for i, (is_done, _) in enumerate(verdicts) if is_done]
    return kind, moves[min(done, key=lambda i: (verdicts[i][1], i), default=0)]


class Worker:
    """A worker, whose own state follows the journal up to the place of its last plan."""

    def __init__(self, inst, start, lot):
        self.state, self.lot, self.made, self.place, self.behind = State(inst, start), lot, 0, 0, 0

    def follow(self, q, journal):
        for move in islice(journal, self.place, q):
            if move:
                self.state.make(move)
        self.place = q


def judged(inst, start, slack, drawing, lots, order):
    """The best place and list, the last list, and the line of each entry."""
    now, workers = State(inst, start), [Worker(inst, start, lot) for lot in lots]
    journal, told, newest = [], [], {}
    best_at, best_cost, best = 0, now.cost, list(start)
    for place, (w, q) in enumerate(order):
        worker = workers[w]
        k, budget = worker.made, len(worker.lot)
        if not (k < budget and worker.behind <= q <= place):
            raise ValueError(f"no worker can have handed in entry {place}")
        worker.follow(q, journal)
        allowed = slack * (budget - 1 - k) // budget
        kind, move = planned(worker.state, worker.lot[k], drawing, allowed)
        writes, every = guards(inst, move)
        if any(newest.get(guard, -1) >= q for guard in every):
            raise ValueError(f"a guard of entry {place} was touched after it was planned")
        is_done, verdict = now.judge(move, allowed)
        steps = joined(f"{p}:{left}>{entered}" for p, left, entered in move)
        told.append(f"{place} {w} {k} {q} {kind} {steps} {'done' if is_done else 'refused'} {verdict}\n")
        if is_done:
            now.make(move)
            newest.update((guard, place) for guard in writes)
        journal.append(move if is_done else None)
        worker.made, worker.behind = k + 1, place + 1
        if now.cost < best_cost:
            best_at, best_cost, best = place + 1, now.cost, list(now.at)
    if any(worker.made < len(worker.lot) for worker in workers):
        raise ValueError("not all proposals have an entry")
    for at, cost in [(best, best_cost), (now.at, now.cost)]:
        if inst.broken(start, at) or inst.parts(start, at)[0] != cost:
            raise ValueError("a cost that was kept by changes is not the sum")
    return best_at, best, told


def numbers_in(name):
    with open(name, encoding="ascii") as file:
        return [int(word) for word in file.read().split()]


def read_model(name):
    numbers = iter(numbers_in(name))

    def take(count):
        return list(islice(numbers, count))

    def rows(*widths):
        """A count, and as many rows, each cut into parts of these widths."""
        (count,) = take(1)
        return zip(*[[take(width or count) for width in widths] for _ in range(count)])

    def flat(column):
        return [row[0] for row in column]

    transient, load_weights = rows(1, 1)
    resources = len(transient)
    hoods, locations, capacities, safeties, ways = rows(1, 1, resources, resources, 0)
    (services,) = take(1)
    spreads, needs = [], []
    for _ in range(services):
        spread, count = take(2)
        spreads.append(spread)
        needs.append(take(count))
    owners, requirements, process_costs = rows(1, resources, 1)
    balances = list(next(rows(4), []))
    inst = Instance(
        transient=flat(transient),
        load_weights=flat(load_weights),
        neighbourhoods=flat(hoods),
        locations=flat(locations),
        capacities=list(capacities),
        safeties=list(safeties),
        way_costs=list(ways),
        spreads=spreads,
        dependencies=needs,
        services=flat(owners),
        requirements=list(requirements),
        process_costs=flat(process_costs),
        balances=balances,
        weights=take(3),
        closed=[False] * len(locations),
    )
    inst.members = [[] for _ in spreads]
    for p, s in enumerate(inst.services):
        inst.members[s].append(p)
    inst.needing = [{s for s, needed in enumerate(needs) if one in needed} for one in range(services)]
    return inst


def lot_of(word):
    """Eight words for each proposal of a lot."""
    if word.startswith("w:"):
        stream = iter([int(number) for number in word[2:].split(",")])
        return [list(islice(stream, 8)) for _ in range((word.count(",") + 1) // 8)]
    seed, budget = map(int, word.split(":"))
    stream = words_of_seed(seed)
    return [list(islice(stream, 8)) for _ in range(budget)]


USAGE = "usage: judge_report.py solve MODEL INITIAL [--slack N] [--closed FILE] [--draws N] LOT ... <REPORT"


def words_of(words):
    """The files, the options and the lots of the words of a run, or None."""
    if len(words) < 4 or words[0] != "solve":
        return None
    _, model, initial, *rest = words
    flags = {}
    while rest and rest[0] in ("--slack", "--closed", "--draws"):
        if len(rest) < 3:
            return None
        flags[rest[0]], rest = rest[1], rest[2:]
    is_lot = [re.fullmatch(r"\d{1,20}:\d{1,20}|w:\d{1,20}(,\d{1,20})*", word) for word in rest]
    if not rest or not all(is_lot) or not all(flags.get(name, "0").isdigit() for name in ("--slack", "--draws")):
        return None
    return model, initial, flags, rest


def judge(model, initial, flags, lots, printed):
    """What is said of a report that is legal. Of another one the first fault is raised as a ValueError."""
    inst, start = read_model(model), numbers_in(initial)
    for m in numbers_in(flags["--closed"]) if "--closed" in flags else []:
        inst.closed[m] = True
    slack, drawing = int(flags.get("--slack", 0)), int(flags.get("--draws", 2))
    order = order_of(printed)
    best_at, best, told = judged(inst, start, slack, drawing, [lot_of(word) for word in lots], order)
    head = cost_lines(inst.parts(start, best))
    head += f"bound {inst.bound(start)[0]}\nbest_at {best_at}\n"
    head += f"assignment {joined(best)}\ndraws {drawing}\n"
    wanted = (head + "".join(told)).splitlines()
    for number, (want, got) in enumerate(zip(wanted, printed.splitlines())):
        if want != got:
            raise ValueError(f"line {number}\n  wanted {want}\n  got    {got}")
    if head + "".join(told) != printed:
        raise ValueError("the report is cut off")
    done = sum(" done " in line for line in told)
    late = sum(q < place for place, (_, q) in enumerate(order))
    return f"legal: {len(told)} entries, {done} done, {late} planned before the entry that stands before them"


def main():
    if sys.argv[1:] in (["-h"], ["--help"]):
        print(__doc__.strip())
        return 0
    words = words_of(sys.argv[1:])
    if words is None:
        print(USAGE, file=sys.stderr)
        return 2
    try:
        print(judge(*words, sys.stdin.read()))
    except (OSError, ValueError) as fault:
        print(f"judge_report.py: {fault}", file=sys.stderr)
        return 1
    except (IndexError, StopIteration):
        print("judge_report.py: a file isn't what it should be, or is cut off", file=sys.stderr)
        return 1
    except KeyboardInterrupt:
        return 130
    return 0


if __name__ == "__main__":
    sys.exit(main())
