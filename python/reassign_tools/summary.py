"""Sums up a report of `reassign solve`, or any list, beside the start from which its processes move.

First comes what one tells others: how many processes move, and how many machines are above their safety capacity of the
resource where most of them are. Then the cost of the start and of the end, the bound, the share of the way between start and
bound that is left; for each resource the machines above their safety capacity, and the fullest; of a report the entries done,
refused by cause, and planned at an earlier state, for each worker; the processes that move, from where to where and by which
services; and the fullest machines before and after. With --json it is one object for scripts, which has every process that
moves. With --names machines, services and resources have their names, as `named pack` writes them, and the closed list may
have the name of a machine in each line. Resources that stand for a rule (`rule` of settings.toml) are shown with --rules alone.

A list is judged by `reassign check`. Of a report each line is read, the moves that were done are followed from INITIAL, and
both lists are judged. One that is cut off or isn't one, or isn't one of these files, is told with the line, and nothing is
summed up. If it is cut off between two entries after its best place, nothing in it tells that: give the lots of the run with
--lots="7:10 8:10" (and its slack, closed list and drawing in front: --lots="--slack 30 7:10"), and `reassign verify` judges
it first. For example

    $ tools/summary examples/sample/new examples/sample/model examples/sample/initial"""
import json
import shlex
import sys
from argparse import Namespace
from collections import Counter
from collections.abc import Callable
from dataclasses import asdict, dataclass, field
from typing import NoReturn, TypeVar

from .closing import given_list
from .files import InRoom, Room, list_text, read_list, write_whole
from .machine_uses import ResourceSum, headline, share_of, uses_of
from .models import Model, same_sizes
from .names import Names
from .problems import Problem, telling
from .program import COSTS, Costs, Program, closed_words
from .reports import HEAD, Entry, ReportHead, is_list, opened
from .running import run_tool
from .waves import Move, moves_between
from .words import Words, any_file_name, file_name, filled, look_at_run_words, number, shown

MOST_TOP = 100_000  # lines of a list
T = TypeVar("T")


def parser() -> Words:
    words = Words("summary", __doc__)
    words.add_program()
    words.add_argument("report", metavar="REPORT|LIST", type=file_name)
    words.add_argument("model", metavar="MODEL", type=file_name)
    words.add_argument("initial", metavar="INITIAL", type=file_name)
    words.add_argument("--json", action="store_true", help="print one JSON object")
    words.add_argument("--top", metavar="N", type=number(1, MOST_TOP), default=5, help="lines of each list (5)")
    words.add_argument("--closed", metavar="FILE", type=file_name, help="the closed list of the run")
    words.add_argument("--lots", metavar="WORDS", help="the words after INITIAL with which the report is verified")
    words.add_argument("--names", metavar="FILE", type=any_file_name, help="the names of the model, as `named pack` writes them")
    words.add_argument("--rules", action="store_true", help="show the resources too that stand for a rule")
    words.add_argument("--title", metavar="TITLE", help="a line to print first")
    return words


@dataclass(frozen=True)
class SummaryOptions:
    """What `summary` is asked: the names of its files, and how much is told. `lots` are the words with which `reassign verify`
    judges the report first."""

    report: str
    model: str
    initial: str
    closed: str | None = None
    lots: str | None = None
    rules: bool = False
    top: int = 5
    program: str | None = None


@dataclass(frozen=True)
class Full:
    """What is used of a resource of a machine, and how much there is."""

    machine: int
    resource: int
    used: int
    capacity: int


@dataclass
class WorkerSum:
    """What came of the entries of a worker: how many there were, were done, and were refused, by the cause, and how many were
    planned at an earlier state."""

    entries: int = 0
    done: int = 0
    refused: dict[str, int] = field(default_factory=dict)
    earlier: int = 0


@dataclass(frozen=True)
class Summary:
    """A list beside the start from which it moves. `way_left` is the share of the way from the start's cost to the bound that is
    left; machines and processes are numbers. `best_at`, `entries` and `workers` are of a report: of a list there is none."""

    sentence: str
    start: Costs
    end: Costs
    bound: int
    way_left: float
    resources: list[ResourceSum]
    processes: int
    moved: list[Move]
    fullest_before: list[Full]
    fullest_after: list[Full]
    best_at: int | None = None
    entries: int = 0
    workers: list[WorkerSum] = field(default_factory=list)


class Journal:
    """The entries of a report, read line by line, with the state that they lead to."""

    def __init__(self, name: str, initial: list[int]) -> None:
        self.now = list(initial)
        self.workers: list[WorkerSum] = []
        with opened(name) as self.report:
            self.head = self.report.head
            self.meet_best(0)
            for entry in self.report.entries():
                self.read(entry)
                self.meet_best(self.report.places + 1)
        self.places = self.report.places

    def read(self, entry: Entry) -> None:
        while len(self.workers) <= entry.worker:
            self.workers.append(WorkerSum())
        worker = self.workers[entry.worker]
        worker.entries += 1
        worker.earlier += entry.is_late
        if entry.cost is None:
            worker.refused[entry.cause] = worker.refused.get(entry.cause, 0) + 1
            return
        worker.done += 1
        for process, left, entered in entry.moves():
            if process >= len(self.now) or self.now[process] != left:
                raise self.report.wrong(f"process {process} isn't on machine {left}, if the run began at this start")
            self.now[process] = entered

    def meet_best(self, places: int) -> None:
        if places == self.head.best_at and self.now != self.head.assignment:
            raise Problem(f"{self.head.name}: line {HEAD.index('assignment') + 1}: the entries don't lead from this start to "
                          "this assignment", 9)


def fullest(model: Model, use: list[list[int]], top: int, resources: list[int]) -> list[Full]:
    """The machines with the greatest share of a capacity in use."""
    def share(row: list[int], capacity: list[int]) -> tuple[float, int]:
        return max((share_of(row[r], capacity[r]), -r) for r in resources)
    shares = [(*share(row, capacity), machine) for machine, (row, capacity) in enumerate(zip(use, model.capacity))]
    shares.sort(key=lambda it: (-it[0], it[2]))
    return [Full(machine, -r, use[machine][-r], model.capacity[machine][-r]) for _, r, machine in shares[:top]]


def summed(options: SummaryOptions, names: Names | None, room: InRoom) -> tuple[Summary, Names]:
    """The summary of a report or a list, and the names, which are numbers if there are none."""
    program = Program(options.program)
    closing = closed_words(given_list(options, names, room))
    if options.lots is not None:
        verify(program, options, options.lots)
    start = program.costs(options.model, options.initial, options.initial, *closing)
    initial = read_list(options.initial)
    journal = None if is_list(options.report) else Journal(options.report, initial)
    end = journal.head.assignment if journal else read_list(options.report)
    if journal is None:
        costs = program.costs(options.model, options.initial, options.report, *closing)
    model = Model.read(options.model)
    same_sizes(model, options.report, initial, end)
    names = names or Names.numbers(model)
    bound = program.numbers("bound", options.model, options.initial, *closing)["bound"]
    if journal:
        costs = judged_head(program, options, closing, journal.head, bound, room("end"))
    resources = names.shown(options.rules)
    uses = uses_of(model, names, initial, end, resources)
    moved, way = moves_between(model, initial, end), start.cost - bound
    before, after = (fullest(model, model.use(one), options.top, resources) for one in (initial, end))
    return Summary(headline(uses, len(moved), model.processes), start, costs, bound, (costs.cost - bound) / way if way else 0.0,
                   [use.summed() for use in uses], model.processes, moved, before, after,
                   journal.head.best_at if journal else None, journal.places if journal else 0,
                   journal.workers if journal else []), names


def verify(program: Program, options: SummaryOptions, words: str) -> None:
    """Has `reassign verify` judge the report first."""
    if is_list(options.report):
        raise Problem(f"--lots is for a report, and {options.report} is a list", 2)
    try:
        lots = shlex.split(words)
    except ValueError as fault:
        raise Problem(f"--lots: {fault}", 2) from None
    look_at_run_words("--lots", lots)
    program.run("verify", options.model, options.initial, options.report, *lots)


def judged_head(program: Program, options: SummaryOptions, closing: list[str], head: ReportHead, bound: int, name: str) -> Costs:
    """The costs that a report tells, which have to be those of its list, written to the file `name`, from this start."""
    write_whole(name, [list_text(head.assignment)])
    with telling(lambda line: line.replace(name, options.report, 1)):
        costs = program.costs(options.model, options.initial, name, *closing)
    for at, word in enumerate(COSTS, 1):
        if getattr(costs, word) != head.numbers[word]:
            raise Problem(f"{options.report}: line {at}: {word} is {getattr(costs, word)} with this model and start", 9)
    if bound != head.bound:
        at = HEAD.index("bound") + 1
        raise Problem(f"{options.report}: line {at}: the bound is {bound} with this model, start and closed list", 9)
    return costs


def as_words(found: Summary, names: Names | None, title: str | None) -> dict[str, object]:
    """A summary for scripts, by names too if there are some."""
    def full(one: Full) -> dict[str, object]:
        more = {"names": [names.machines[one.machine], names.resources[one.resource]]} if names else {}
        return asdict(one) | more

    def moved(one: Move) -> dict[str, object]:
        told = {"process": one.process, "service": one.service, "from": one.start, "to": one.end}
        more = {"names": [names.processes[one.process], names.services[one.service], names.machines[one.start],
                          names.machines[one.end]]} if names else {}
        return told | more
    told: dict[str, object] = {"title": title} if title else {}
    told |= {
        "sentence": found.sentence, "start": asdict(found.start), "end": asdict(found.end), "bound": found.bound,
        "way_left": found.way_left, "resources": [asdict(one) for one in found.resources], "processes": found.processes,
        "moved": [moved(one) for one in found.moved],
        "fullest_before": list(map(full, found.fullest_before)), "fullest_after": list(map(full, found.fullest_after)),
    }
    if found.best_at is not None:
        told |= {"best_at": found.best_at, "entries": found.entries,
                 "workers": [asdict(one) | {"refused": dict(sorted(one.refused.items()))} for one in found.workers]}
    return told


# Lines


def told_counts(counts: Counter[T], top: int, form: Callable[[T, int], str]) -> str:
    """The greatest counts, in words."""
    most = sorted(counts.items(), key=lambda it: (-it[1], it[0]))
    told = ", ".join(form(key, count) for key, count in most[:top])
    return told + (f", and {len(most) - top} more" if len(most) > top else "")


def tell(found: Summary, names: Names, top: int) -> None:
    print(found.sentence)
    print(f"start {found.start.cost}\nend {found.end.cost}\nbound {found.bound}\nway left {100 * found.way_left:.1f} %")
    for name in COSTS[1:]:
        print(f"{name} {getattr(found.start, name)} > {getattr(found.end, name)}")
    for use in found.resources:
        print(f"{use.resource}: machines above safety {use.above_before} > {use.above_after}, the fullest "
              f"{100 * use.fullest_before:.1f} % > {100 * use.fullest_after:.1f} %")
    if found.best_at is not None:
        tell_journal(found)
    tell_moved(found.moved, found.processes, names, top)
    for when, some in (("before", found.fullest_before), ("after", found.fullest_after)):
        print(f"fullest {when}: " + ", ".join(
            f"machine {names.machines[it.machine]} {names.resources[it.resource]} {names.amount(it.resource, it.used)} of "
            f"{names.amount(it.resource, it.capacity)}" for it in some))


def tell_journal(found: Summary) -> None:
    refused = Counter[str]()
    for worker in found.workers:
        refused.update(worker.refused)
    done = sum(worker.done for worker in found.workers)
    print(f"entries {found.entries}: {done} done, {refused.total()} refused; the best after {found.best_at}")
    if refused:
        print("refused by " + told_counts(refused, len(refused), "{} {}".format))
    for at, worker in enumerate(found.workers):
        print(f"worker {at}: {worker.entries} entries, {worker.done} done, {sum(worker.refused.values())} refused, "
              f"{worker.earlier} planned at an earlier state")


def tell_moved(moved: list[Move], processes: int, names: Names, top: int) -> None:
    print(f"moved {len(moved)} of {processes} processes")
    if moved:
        services, ways = Counter(one.service for one in moved), Counter((one.start, one.end) for one in moved)

        def of_machine(machine: int, count: int) -> str:
            return f"machine {names.machines[machine]} {count}"
        print("ways " + told_counts(ways, top, lambda way, count: f"{names.machines[way[0]]}>{names.machines[way[1]]} {count}"))
        print("left " + told_counts(Counter(one.start for one in moved), top, of_machine))
        print("entered " + told_counts(Counter(one.end for one in moved), top, of_machine))
        print(f"services {len(services)}: " + told_counts(services, top, lambda one, count: f"service {names.services[one]} {count}"))


def work(words: Namespace) -> None:
    names = Names.read(words.names, words.model) if words.names else None
    title = words.title and shown(words.title)
    with Room() as room, telling(names.line if names else None):
        found, shown_names = summed(filled(SummaryOptions, words), names, room)
    if words.json:
        json.dump(as_words(found, names, title), sys.stdout)
        print()
    else:
        if title:
            print(title)
        tell(found, shown_names, words.top)


def main(words: list[str] | None = None) -> NoReturn:
    run_tool(parser(), work, words)
