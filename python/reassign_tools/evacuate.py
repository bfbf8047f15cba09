"""Moves the processes of closed machines elsewhere.

With `--closed` alone nobody enters a closed machine, but nobody has to leave. This tool writes a model in which staying on
a closed machine costs more than anything else (the way from it to itself, which a model may give any cost), and runs `anneal`
on it: first a descent in which nobody else moves. If some stay, B tries with all processes make room; and if some stay then,
the closed machines have no capacity of a resource that isn't transient, and `reassign repair` looks for a way there
(tools/repair_words). What comes is judged with MODEL itself.

Others, who stood on open machines, may have moved by then. They are put back: all of them, else by halves, as long as
`reassign check` calls the list feasible, until none can go back alone, or after so many checks (--checks). It is told how many
others had to move, and which rule keeps them from going back.

NEW has the list with the fewest processes on closed machines. If somebody stays there, the status is 11, and it is told
which rule keeps each from each open machine, and what it would break on the machines with most room. Ctrl-C ends it well:
NEW has the best list so far.

If MODEL lies in a folder that `named pack` wrote, nobody enters the machines either that its `closed` names, which is told; they
aren't emptied. With --only the machines of CLOSED alone are closed.

With --most it empties as many machines as it can in --seconds, one after another: those with the highest `price` (a column of
machines.csv, which --names has) first, and else those of which the least is in use. The processes of a machine go where least
room is left after them, or none of them goes. It tells which machines are empty then and what they cost together, and writes
the list, and a closed list that keeps them empty.

With --names all this is told by names, and CLOSED may have the name of a machine in each line. If it has nothing but numbers,
these are those of the model, as elsewhere. For example

    $ tools/evacuate examples/sample/model examples/sample/initial /tmp/closed --out /tmp/emptied"""
import copy
from argparse import Namespace
from collections import Counter
from collections.abc import Callable, Mapping, Sequence
from dataclasses import asdict, dataclass
from itertools import chain
from typing import NoReturn

from .closing import add_only, given_list, with_fleet
from .evacuate_most import MostOptions, empty_most
from .files import InRoom, Room, list_text, read_list, target, write_whole
from .high_stays import pinned, with_high_stays
from .models import Model, closed_flags, same_sizes
from .names import Names
from .problems import Problem, Stopped, telling
from .program import Costs, Program, closed_words
from .repair_words import Repair, RepairOptions
from .running import no_more_stops, run_tool, say
from .states import Cause, State
from .texts import counted, some
from .words import LARGEST_SEED, MOST_LOTS, Words, any_file_name, file_name, filled, number, processors

BUDGET, MOST_BUDGET = 10_000_000, 10**12  # tries for all processes in a turn
CHECKS, MOST_CHECKS = 2000, 1_000_000
MOST_TOLD, MOST_LOOKED = 10, 200  # processes that are told of, and that are looked at


@dataclass(frozen=True)
class EvacuateOptions:
    """What `evacuate` is asked: the names of its files, and how long it looks."""

    model: str
    initial: str
    closed: str | None
    out: str
    names: str | None = None
    budget: int = BUDGET
    workers: int | None = None
    checks: int = CHECKS
    seed: int = 1
    only: bool = False
    model_out: str | None = None
    program: str | None = None
    anneal: str | None = None


@dataclass(frozen=True)
class Evacuated:
    """The list with the fewest processes on closed machines, its costs, which processes stay there, and which of other machines
    had to move."""

    assignment: list[int]
    costs: Costs
    staying: list[int]
    others: list[int]


def parser() -> Words:
    words = Words("evacuate", __doc__)
    words.add_program()
    words.add_argument("model", metavar="MODEL", type=file_name)
    words.add_argument("initial", metavar="INITIAL", type=file_name)
    words.add_argument("closed", metavar="CLOSED", type=file_name, nargs="?",
                       help="the machines to be emptied; with --most those that are closed before, if there are some")
    words.add_argument("--out", metavar="NEW", type=file_name, required=True, help="the new list")
    words.add_argument("--names", metavar="FILE", type=any_file_name, help="the names of the model, as `named pack` writes them")
    words.add_argument("--anneal", metavar="FILE", type=any_file_name, help="the program anneal (else as --program, by ANNEAL)")
    words.add_argument("--budget", metavar="B", type=number(0, MOST_BUDGET), default=BUDGET,
                       help=f"tries for all processes in a turn, if some stay ({BUDGET}); 0 moves nobody else")
    words.add_argument("--workers", metavar="W", type=number(1, MOST_LOTS),
                       help="workers of these tries (as many as processors)")
    words.add_argument("--checks", metavar="N", type=number(0, MOST_CHECKS), default=CHECKS,
                       help=f"put others back by at most so many calls of `reassign check` ({CHECKS})")
    words.add_argument("--seed", metavar="S", type=number(0, LARGEST_SEED), default=1, help="seed of the choices (1)")
    words.add_argument("--most", action="store_true", help="empty as many machines as can be, the dearest first")
    words.add_argument("--seconds", metavar="S", type=number(1, 1_000_000), default=30, help="of --most: end after so many (30)")
    words.add_argument("--closed-out", metavar="FILE", type=file_name, help="of --most: the closed list (NEW.closed)")
    add_only(words)
    words.add_argument("--model-out", metavar="FILE", type=file_name, help="write the changed model there")
    return words


class Evacuation:
    """The way to a list with the fewest processes on closed machines. `tell` gets lines that say how far it is."""

    def __init__(self, options: EvacuateOptions, room: InRoom, names: Names | None,
                 tell: Callable[[str], object] = say) -> None:
        self.options, self.room, self.program, self.tell = options, room, Program(options.program), tell
        self.anneal, self.workers = Program(options.anneal, "anneal"), options.workers or processors()
        inputs = self.program.name, self.anneal.name, options.model, options.initial, options.closed, options.names
        self.out = target(options.out, *inputs)
        model_out = options.model_out and target(options.model_out, options.out, *inputs)
        given = given_list(options, names, room)
        self.program.costs(options.model, options.initial, options.initial, *closed_words(given))
        self.model, self.start = Model.read(options.model), read_list(options.initial)
        same_sizes(self.model, options.model, self.start)
        self.names = names or Names.numbers(self.model)
        self.flags = closed_flags(self.model, given)  # of the machines that are emptied; `shut` are all that nobody may enter
        self.closed = with_fleet(options, given, self.names, room, tell)
        self.shut, self.closing = closed_flags(self.model, self.closed), closed_words(self.closed)
        self.changed = with_high_stays(self.model, self.start, self.flags)
        if model_out:
            write_whole(model_out, self.changed.pieces())
        self.now, self.turns, self.checks = list(self.start), 0, options.checks

    def staying(self, now: list[int] | None = None) -> list[int]:
        """The processes on the machines that are emptied."""
        return [p for p, machine in enumerate(now or self.now) if self.flags[machine]]

    def others(self) -> list[int]:
        """The processes of other machines that moved."""
        return [p for p, (home, now) in enumerate(zip(self.start, self.now)) if home != now and not self.flags[home]]

    def turn(self, model: Model, tries: int) -> bool:
        """A search in a changed model. Answers whether fewer stay."""
        self.turns += 1
        write_whole(self.room("model"), model.pieces())
        seed = (self.options.seed + self.turns - 1) % 2**64
        words = [*self.closing, "--workers", self.workers, f"{seed}:{tries}"]
        _, lines, _ = self.anneal.run(self.room("model"), self.options.initial, *words)
        found = [line for line in lines if line.startswith("assignment ")]
        if len(found) != 1:
            raise self.anneal.no_program("doesn't print what anneal prints")
        return self.keep(list(map(int, found[0].split()[1:])))

    def keep(self, found: list[int]) -> bool:
        """Keeps a list with fewer on closed machines, if it is feasible from the true start."""
        staying = len(self.staying(found))
        if staying >= len(self.staying()) or not self.is_feasible(found):
            return False
        self.now = found
        self.tell(f"turn {self.turns}: {staying} of {len(self.staying(self.start))} processes stay")
        return True

    def is_feasible(self, found: list[int]) -> bool:
        """Whether a list is feasible from the true start, as `check` says."""
        write_whole(self.room("found"), [list_text(found)])
        words = "check", self.options.model, self.options.initial, self.room("found"), *self.closing
        status, _, _ = self.program.run(*words, endings=(0, 6))
        return status == 0

    def go(self) -> None:
        if self.staying():
            self.turn(pinned(self.changed, self.start, self.flags), 0)
        while self.staying() and self.options.budget and self.turn(self.changed, self.options.budget):
            pass
        if self.staying() and self.options.budget:
            self.by_repair()
        self.put_others_back()

    def put_others_back(self) -> None:
        """Puts the others back who needn't have moved: all of them, else by halves, in which those stand together whose
        services depend on each other; and anew, since one who went back may make room for another."""
        before = after = len(self.others())
        places = {service: place for place, service in enumerate(chain(*self.model.groups()))}
        while after and self.checks:
            groups: list[Sequence[int]] = [sorted(self.others(), key=lambda p: (places[self.model.service[p]], p))]
            while groups:
                groups = [half for group in groups if not self.put_back(group) for half in halves(group)]
            last, after = after, len(self.others())
            if after == last:
                break
        if before:
            self.tell(f"{before} others had moved; {before - after} of them went back, by {self.options.checks - self.checks} checks")

    def put_back(self, group: Sequence[int]) -> bool:
        """Puts processes back to their first machines, if the list stays feasible."""
        if not self.checks:
            return False
        self.checks -= 1
        found = list(self.now)
        for process in group:
            found[process] = self.start[process]
        if not self.is_feasible(found):
            return False
        self.now = found
        return True

    def by_repair(self) -> None:
        """Looks for a way by `repair`, with no capacity of a resource that isn't transient on the closed machines."""
        model, staying = self.model, self.staying()
        counts = [sum(model.required[p][r] > 0 for p in staying) * (not model.transient[r]) for r in range(model.resources)]
        if not max(counts):
            return
        r = counts.index(max(counts))
        empty = copy.copy(model)
        empty.capacity = [[0 if is_closed and at == r else room for at, room in enumerate(row)]
                          for row, is_closed in zip(model.capacity, self.flags)]
        # What who left holds of a transient resource isn't there: so what is feasible from the list so far is from the true start.
        held = model.left_behind(self.start, self.now)
        empty.capacity = [[room - out if flag else room for room, out, flag in zip(row, gone, model.transient)]
                          for row, gone in zip(empty.capacity, held)]
        write_whole(self.room("model"), empty.pieces())
        write_whole(self.room("list"), [list_text(self.now)])
        options = RepairOptions(self.room("model"), self.room("list"), self.room("repaired"), self.closed, seed=self.options.seed,
                                program=self.program.name)
        self.turns += 1
        repair = Repair(options, self.room, tell=lambda line: None)
        repair.go()
        self.keep(repair.now)

    def done(self) -> Evacuated:
        """Writes the list, and answers what came."""
        write_whole(self.out, [list_text(self.now)])
        costs = self.program.costs(self.options.model, self.options.initial, self.out, *self.closing)
        return Evacuated(self.now, costs, self.staying(), self.others())


class Telling:
    """What is told of an evacuation."""

    def __init__(self, evacuation: Evacuation, found: Evacuated) -> None:
        self.model, self.names, self.start, self.found = evacuation.model, evacuation.names, evacuation.start, found
        self.flags, self.shut, self.first = evacuation.flags, evacuation.shut, evacuation.staying(evacuation.start)
        self.state = State(self.model, self.start, found.assignment, self.shut)

    def tell(self, by_names: bool) -> None:
        first, staying, others = len(self.first), self.found.staying, self.found.others
        closed = [name for name, is_closed in zip(self.names.machines, self.flags) if is_closed]
        print(f"went {first - len(staying)} of {first} processes of {counted(len(closed), 'closed machine')}"
              f"{f': {some(closed)}' if by_names and closed else ''}")
        print(f"others {len(others)} of {self.model.processes - first} had to move")
        print("".join(f"{name} {value}\n" for name, value in asdict(self.found.costs).items()), end="")
        if others:
            self.tell_others()
        if staying:
            self.tell_staying()

    def by_room(self, process: int) -> list[int]:
        """The open machines, those first where most room would be left of the scarcest resource."""
        required, own, model = self.model.required[process], self.state.now[process], self.model

        def room(machine: int) -> float:
            rows = model.capacity[machine], self.state.use[machine], required
            return min((limit - used - more) / max(limit, 1) for limit, used, more in zip(*rows))
        return sorted((m for m in range(model.machines) if not self.shut[m] and m != own), key=lambda m: (-room(m), m))

    def named(self, process: int) -> str:
        """A process with its service."""
        return f"process {self.names.processes[process]} of service {self.names.services[self.model.service[process]]}"

    def cause(self, cause: Cause | None, none: str) -> str:
        return self.names.cause(*cause) if cause else none

    def tell_others(self) -> None:
        """Why the others can't go back."""
        causes = {process: self.state.breaks(process, self.start[process]) for process in self.found.others}
        for process, cause in list(causes.items())[:MOST_TOLD]:
            print(f"{self.named(process)} can't go back to machine {self.names.machines[self.start[process]]}: "
                  f"{self.cause(cause, 'not tried')}")
        print(f"all {len(causes)} others: {told(counts_of(causes, 'not tried'))}")

    def tell_staying(self) -> None:
        """Why those that stay do."""
        totals: Counter[str] = Counter()
        looked = self.found.staying[:MOST_LOOKED]
        for at, process in enumerate(looked):
            causes = {machine: self.state.breaks(process, machine) for machine in self.by_room(process)}
            counts = counts_of(causes, "nothing")
            totals.update(counts)
            if at < MOST_TOLD:
                print(f"{self.named(process)} stays on machine {self.names.machines[self.state.now[process]]}: "
                      f"of {len(causes)} open machines {told(counts)}")
                for machine, cause in list(causes.items())[:3]:
                    print(f"  machine {self.names.machines[machine]}: {self.cause(cause, 'takes it')}")
        print(f"all {len(looked)} that were looked at: {told(totals)}")


def counts_of(causes: Mapping[int, Cause | None], none: str) -> Counter[str]:
    """How often each word of a broken rule comes."""
    return Counter(str(cause[0]) if cause else none for cause in causes.values())


def halves(group: Sequence[int]) -> list[Sequence[int]]:
    """The halves of a group, if it has any."""
    middle = len(group) // 2
    return [group[:middle], group[middle:]] if middle else []


def told(counts: Mapping[str, int]) -> str:
    return ", ".join(f"{count} by {cause}" for cause, count in sorted(counts.items(), key=lambda it: (-it[1], it[0]))) or "none"


def evacuated(options: EvacuateOptions, names: Names | None, room: InRoom,
              tell: Callable[[str], object] = say) -> tuple[Evacuated, Telling]:
    """The list with the fewest processes on closed machines, and what can be told of it. If it ends early, the best list so far
    is written."""
    evacuation = Evacuation(options, room, names, tell)
    try:
        evacuation.go()
    except Stopped:
        no_more_stops()
        tell(f"stopped in turn {evacuation.turns}; {options.out} has the best list so far")
    except BaseException:
        if evacuation.now != evacuation.start:
            write_whole(evacuation.out, [list_text(evacuation.now)])
            tell(f"{options.out} has the best list so far")
        raise
    found = evacuation.done()
    return found, Telling(evacuation, found)


def work(words: Namespace) -> int:
    if not words.most and not words.closed:
        raise Problem("CLOSED is missing, or --most; evacuate --help shows how to call it", 2)
    names = Names.read(words.names, words.model) if words.names else None
    with Room() as room, telling(names.line if names else None):
        if words.most:
            empty_most(filled(MostOptions, words), room, names)
            return 0
        found, telling_of = evacuated(filled(EvacuateOptions, words), names, room)
    telling_of.tell(by_names=bool(names))
    return 11 if found.staying else 0


def main(words: list[str] | None = None) -> NoReturn:
    run_tool(parser(), work, words)
