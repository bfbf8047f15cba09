"""Repairs a start that breaks rules, by proposals that aim at the processes that stand in broken rules.

`reassign repair` tries what its words name; with a seed these are any processes. This tool looks which rules are broken,
writes proposals for the processes there (one lot of at most 131,071 bytes, the longest word that Linux hands over), runs
`reassign repair` with them, and begins again with what is broken then, until the list is feasible or nothing has fallen in
so many turns (--idle). REPAIRED is written in the end, whole, also if it still breaks a rule; the status is 11 then, and 130 or
143 after a stop.

REPAIRED is then the initial list of what follows, since INITIAL, which breaks rules, can be none: move costs and transient
use count from there. What the moves from INITIAL cost is told, as no later run will tell it; and whether they are feasible
from INITIAL, that is in one go, or only as a new initial list.

If MODEL lies in a folder that `named pack` wrote, the machines that its `closed` names are closed too, which is told; with
--only those of --closed alone are. With --names all this is told by names, and the closed list may have the name of a machine
in each line. For example

    $ tools/repair_words examples/sample/model examples/sample/initial --out /tmp/repaired"""
import random
from argparse import Namespace
from collections import defaultdict
from collections.abc import Callable, Sequence
from dataclasses import dataclass
from functools import partial
from typing import NoReturn

from .closing import add_only, given_list, with_fleet
from .files import InRoom, Room, list_text, read_list, target, write_whole
from .lots import lot_of
from .models import Model, closed_flags, same_sizes
from .names import Names
from .problems import Problem, Stopped, telling
from .program import Program, closed_words
from .running import run_tool, say, stopped_status
from .states import Cause
from .words import LARGEST_SEED, Words, any_file_name, file_name, filled, number

MOST_TOLD = 4000  # proposals that a turn repeats, so that the rest of the lot is for new ones
ONE_WAY = 20  # turns
A_SITE, A_TURN = 8, 20  # proposals for each broken rule in a turn, and at least for all of them
Proposal = tuple[int, ...]
LOOKS = 40  # machines that are looked at for one proposal
MOST_TURNS = 1_000_000


@dataclass(frozen=True)
class RepairOptions:
    """What a repair is asked: the names of its files, and when it ends."""

    model: str
    initial: str
    out: str
    closed: str | None = None
    names: str | None = None
    only: bool = False
    turns: int = MOST_TURNS
    idle: int = 100
    seed: int = 1
    program: str | None = None


def parser() -> Words:
    words = Words("repair_words", __doc__)
    words.add_program()
    words.add_argument("model", metavar="MODEL", type=file_name)
    words.add_argument("initial", metavar="INITIAL", type=file_name, help="the start, which breaks rules")
    words.add_argument("--out", metavar="REPAIRED", type=file_name, required=True, help="the repaired list")
    words.add_argument("--closed", metavar="FILE", type=file_name, help="machines that nobody may enter")
    add_only(words)
    words.add_argument("--names", metavar="FILE", type=any_file_name, help="the names of the model, as `named pack` writes them")
    words.add_argument("--turns", metavar="N", type=number(1, MOST_TURNS), default=MOST_TURNS, help="end after so many turns")
    words.add_argument("--idle", metavar="N", type=number(1, MOST_TURNS), default=100,
                       help="end if nothing has fallen in so many turns (100)")
    words.add_argument("--seed", metavar="S", type=number(0, LARGEST_SEED), default=1, help="seed of the choices (1)")
    return words


class Broken:
    """The broken rules of a list, as moved from a start: each is a function that makes a proposal for it."""

    def __init__(self, model: Model, start: list[int], now: list[int], closed: list[bool], chance: random.Random,
                 coming: float) -> None:
        self.model, self.start, self.now, self.closed, self.chance = model, start, now, closed, chance
        self.coming = coming  # how often what is needed comes, and not goes what needs it
        self.use, self.held = model.use(now), model.left_behind(start, now)
        self.open = [m for m in range(model.machines) if not closed[m]] or list(range(model.machines))
        self.on: dict[int, list[int]] = defaultdict(list)
        for process, machine in enumerate(now):
            self.on[machine].append(process)
        self.members = model.members()
        self.in_location: dict[int, list[int]] = defaultdict(list)
        self.in_hood: dict[int, list[int]] = defaultdict(list)
        for machine in self.open:
            self.in_location[model.locations[machine]].append(machine)
            self.in_hood[model.hoods[machine]].append(machine)
        self.sites: list[Callable[[], Proposal]] = []
        self.never: list[tuple[int, int, int, int]] = []  # machine, resource, what is in use, and the capacity
        self.look_at_rooms()
        self.look_at_services()
        for process, machine in enumerate(now):
            if closed[machine] and start[process] != machine:
                self.sites.append(partial(self.shift, process, [start[process]]))

    def look_at_rooms(self) -> None:
        model = self.model
        for machine, (used, held, capacity) in enumerate(zip(self.use, self.held, model.capacity)):
            for r in range(model.resources):
                if used[r] > capacity[r]:
                    some = [p for p in self.on[machine] if model.required[p][r]]
                    self.sites.append(partial(self.relieve, some, r))
                elif model.transient[r] and used[r] + held[r] > capacity[r]:
                    newcomers = [p for p in self.on[machine] if model.required[p][r] and self.start[p] != machine]
                    if newcomers:
                        self.sites.append(partial(self.relieve, newcomers, r))
                    else:
                        self.never.append((machine, r, used[r] + held[r], capacity[r]))

    def look_at_services(self) -> None:
        model, now = self.model, self.now
        hoods = [{model.hoods[now[p]] for p in some} for some in self.members]
        for service, some in enumerate(self.members):
            at: dict[int, list[int]] = defaultdict(list)
            for process in some:
                at[now[process]].append(process)
            for crowd in at.values():
                if len(crowd) > 1:
                    self.sites.append(partial(self.shift_one, crowd, self.open))
            has = {model.locations[machine] for machine in at}
            if some and len(has) < model.spreads[service]:
                self.sites.append(partial(self.spread, some, has))
            for needed in set(model.needs[service]):
                for process in some:
                    if model.hoods[now[process]] not in hoods[needed]:
                        self.sites.append(partial(self.join, process, needed, sorted(hoods[needed])))

    def fits(self, process: int, machine: int) -> bool:
        model, used, held, home = self.model, self.use[machine], self.held[machine], self.start[process] == machine
        if any(model.service[other] == model.service[process] for other in self.on[machine]):
            return False
        for r, (more, room) in enumerate(zip(model.required[process], model.capacity[machine])):
            if used[r] + more > room or (model.transient[r] and not home and used[r] + held[r] + more > room):
                return False
        return True

    def shift_one(self, some: Sequence[int], machines: Sequence[int]) -> Proposal:
        return self.shift(self.chance.choice(some), machines)

    def shift(self, process: int, machines: Sequence[int]) -> Proposal:
        """A shift that looks first at a machine of these that has room."""
        machine = self.chance.choice(machines)
        for _ in range(min(LOOKS, 2 * len(machines))):
            if self.fits(process, machine):
                break
            machine = self.chance.choice(machines)
        return 0, process, machine

    def relieve(self, some: Sequence[int], r: int) -> Proposal:
        """One of the processes that use too much of a resource leaves; or it is exchanged with one that requires less; or it
        takes the place of one that takes the place of a third."""
        process, kind = self.chance.choice(some), self.chance.randrange(8)
        if kind < 5:
            return self.shift(process, self.open)
        others = [self.chance.randrange(self.model.processes) for _ in range(4)]
        if kind < 7:
            required = self.model.required
            less = [q if required[q][r] < required[process][r] else self.chance.randrange(len(required)) for q in others]
            return 5, process, *less
        return 7, process, others[0], others[1], self.chance.choice(self.open)

    def spread(self, some: Sequence[int], has: set[int]) -> Proposal:
        """A process of a service goes to a location where none of it is."""
        locations = [location for location in self.in_location if location not in has]
        return self.shift_one(some, self.in_location[self.chance.choice(locations)] if locations else self.open)

    def join(self, process: int, needed: int, near: Sequence[int]) -> Proposal:
        """A process goes where the service is that it needs, or one of that service comes to it."""
        here = self.in_hood[self.model.hoods[self.now[process]]]
        if self.members[needed] and here and self.chance.random() < self.coming:
            return self.shift_one(self.members[needed], here)
        hoods = [hood for hood in near if self.in_hood[hood]]
        return self.shift(process, self.in_hood[self.chance.choice(hoods)] if hoods else self.open)

    def proposals(self, count: int) -> list[Proposal]:
        """So many proposals for the broken rules, in turn."""
        made: list[Proposal] = []
        while self.sites and len(made) < count:
            self.chance.shuffle(self.sites)
            made += [site() for site in self.sites[:count - len(made)]]
        return made


class Result:
    """What a run of `repair` printed."""

    def __init__(self, lines: list[str], proposals: Sequence[Proposal], error: str) -> None:
        try:
            self.feasible = lines[0] == "feasible"
            self.cause: Cause = tuple(int(word) if word.isdigit() else word for word in lines[0].split()[1:])
            self.now = list(map(int, lines[1].split()[1:]))
            tries = [line.split() for line in lines[2:]]
            self.tries = len(tries)
            self.before = int(tries[0][-2]) if tries else 0
            self.penalty = self.before
            self.taken: list[Proposal] = []
            self.falls: list[tuple[int, Proposal]] = []
            for at, (words, proposal) in enumerate(zip(tries, proposals)):
                if words[-3] == "taken":
                    self.penalty = int(words[-1])
                    self.taken.append(proposal)
                    if int(words[-1]) < int(words[-2]):
                        self.falls.append((at, proposal))
        except (IndexError, ValueError):
            raise Problem(f"`reassign repair` doesn't print what it should: {error}") from None

    def falls_behind(self, count: int) -> list[Proposal]:
        """The proposals behind the first ones that lowered the penalty."""
        return [proposal for at, proposal in self.falls if at >= count]


class Repair:
    """The repair of a list; `tell` gets lines that say how far it is."""

    def __init__(self, options: RepairOptions, room: InRoom, names: Names | None = None,
                 tell: Callable[[str], object] = say) -> None:
        self.options, self.program, self.room, self.tell = options, Program(options.program), room, tell
        self.out = target(options.out, self.program.name, options.model, options.initial, options.closed, options.names)
        given = given_list(options, names, room)
        self.program.run("bound", options.model, options.initial, *closed_words(given))
        self.model, self.first = Model.read(options.model), read_list(options.initial)
        same_sizes(self.model, options.model, self.first)
        self.names = names or Names.numbers(self.model)
        closed = with_fleet(options, given, self.names, room, tell)
        self.flags, self.closing = closed_flags(self.model, closed), closed_words(closed)
        self.chance = random.Random(options.seed)
        self.start_name, self.start, self.now = options.initial, self.first, list(self.first)
        self.told: list[Proposal] = []
        self.tries = 0
        self.never: list[tuple[int, int, int, int]] = []

    def run(self, proposals: Sequence[Proposal]) -> Result:
        lot, count = lot_of(proposals)
        command = ("repair", self.options.model, self.start_name, *self.closing, lot if count else "0:0")
        _, lines, error = self.program.run(*command, endings=(0, 11))
        return Result(lines, proposals[:count], error)

    def begin_anew(self) -> None:
        """The list so far becomes the initial one."""
        self.start_name = self.room("start")
        write_whole(self.start_name, [list_text(self.now)])
        self.start, self.told = list(self.now), []

    def is_entered(self) -> bool:
        """Whether a process is on a closed machine that isn't its first: as the initial list this one would hide that."""
        return any(self.flags[now] and now != first for first, now in zip(self.first, self.now))

    def turn(self, idle: int) -> Result | None:
        """One turn. Answers what came of it, or None if there is nothing to aim at. While nothing falls, dependencies are
        followed in one direction for a while and then in the other, since services that need each other in a ring have to
        move all of them."""
        coming = idle // ONE_WAY % 2 if idle else 0.3
        broken = Broken(self.model, self.start, self.now, self.flags, self.chance, coming)
        self.never = broken.never
        aimed = broken.proposals(max(A_TURN, A_SITE * len(broken.sites)))
        if not aimed:
            return None
        came = self.run(self.told + aimed)
        self.tries += came.tries - len(self.told)
        falls = came.falls_behind(len(self.told))
        if falls:
            # Moves that lower nothing were taken too: without them fewer processes move.
            fewer = self.run(self.told + falls)
            if fewer.penalty <= came.penalty:
                self.told, self.now = self.told + falls, fewer.now
                return fewer
        self.told, self.now = came.taken, came.now
        return came

    def go(self) -> tuple[Result, int, int]:
        """The turns. Answers the last result, the first penalty, and how many turns there were."""
        judged, first, turns, idle = self.run([]), 0, 0, 0
        penalty: int | None = None
        while not judged.feasible and turns < self.options.turns and idle < self.options.idle:
            came = self.turn(idle)
            if came is None:
                if self.now == self.start:
                    break
                self.begin_anew()
                judged = self.run([])
                continue
            judged, turns = came, turns + 1
            first = came.before if turns == 1 else first
            idle = 0 if penalty is None or came.penalty < penalty else idle + 1
            if not idle:
                self.tell(f"turn {turns}: penalty {came.penalty} after {self.tries} tries")
            penalty = came.penalty
            if not judged.feasible and lot_of(self.told)[1] > MOST_TOLD and not self.is_entered():
                self.begin_anew()
                judged = self.run([])
        return judged, first, turns

    def breaks_from_first(self) -> Cause | None:
        """The first rule that the moves from the first list break, or None."""
        model = self.model
        for machine, (used, held) in enumerate(zip(model.use(self.now), model.left_behind(self.first, self.now))):
            for r in range(model.resources):
                if model.transient[r] and used[r] + held[r] > model.capacity[machine][r]:
                    return "transient", machine, r, used[r] + held[r], model.capacity[machine][r]
        for process, machine in enumerate(self.now):
            if self.flags[machine] and self.first[process] != machine:
                return "closed", process, machine
        return None


def work(words: Namespace) -> int:
    options = filled(RepairOptions, words)
    names = Names.read(options.names, options.model) if options.names else None
    with Room() as room, telling(names.line if names else None):
        repair = Repair(options, room, names)
        try:
            judged, first, turns = repair.go()
        except Stopped:
            if repair.now != repair.first:
                write_whole(repair.out, [list_text(repair.now)])
                raise Problem(f"stopped; {options.out} has the list so far, which breaks rules", stopped_status()) from None
            raise
        write_whole(repair.out, [list_text(repair.now)])
        tell(options, repair, judged, first, turns)
    return 0 if judged.feasible else 11


def tell(options: RepairOptions, repair: Repair, judged: Result, first: int, turns: int) -> None:
    """Tells what came of the repair."""
    names = repair.names
    count = sum(home != machine for home, machine in zip(repair.first, repair.now))
    process, service, machine = repair.model.moves_cost(repair.first, repair.now)
    print("feasible" if judged.feasible else f"broken {names.cause(*judged.cause)}")
    print(f"penalty {first} > {0 if judged.feasible else judged.penalty}, {turns} turns, {repair.tries} tries")
    print(f"moved {count} of {repair.model.processes} processes; their moves cost process {process}, service {service}, "
          f"machine {machine}")
    if judged.feasible:
        repair.program.numbers("check", options.model, options.out, options.out, *repair.closing)
        cause = repair.breaks_from_first()
        print(f"feasible as a new initial list; from {options.initial} its moves break {names.cause(*cause)}" if cause else
              f"feasible from {options.initial}, in one go")
        print(f"use {options.out} as the initial list from here on: move costs and transient use count from it")
        return
    for m, r, used, capacity in repair.never[:10]:
        print(f"on machine {names.machines[m]}, {names.amount(r, used)} of {names.amount(r, capacity)} of transient "
              f"{names.resources[r]} stay in use whatever moves")
    print(f"{options.out} breaks fewer rules; give room (a capacity, or one process less), or go on with it as the start and "
          "another --seed")


def main(words: list[str] | None = None) -> NoReturn:
    run_tool(parser(), work, words)
