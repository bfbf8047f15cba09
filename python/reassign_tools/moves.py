"""Tells which processes move between two lists: process, service, from, to, and what it requires.

NEW is a list, or a report of `reassign solve`. Both lists have to be feasible, as `reassign check` says. Moves that bring
nothing are left out: a process goes home if the list costs no more then. With --at-most K those K moves are kept that bring
most together; other choices of K moves may bring a little more. With --curve it is told instead what so many moves bring: the
cost, and the share of the way from INITIAL's cost to that of all moves. Each list of which something is printed is judged by
`reassign check`.

A list of moves says who moves where, and not in which order: that the list is feasible is said of its end, and of transient
resources while all are on their way. With --waves K the moves come in waves of at most K, of a service at most --per-service N
in one, so that the list after each wave breaks no rule from INITIAL, as `reassign check` says; those waves come first that
lower the cost most. Nothing is said of what is between: in a wave all moves may be on their way at once. What can't be brought
into waves is told, with the rule in the way, and the status is 11: two full machines that exchange processes, in waves of one.
With --through a process may wait on a third machine for that. Resources that stand for a rule (`rule` of settings.toml) are
shown with --rules alone. With --names machines, services, processes and resources have their names, and the closed
list may have the name of a machine in each line. If MODEL lies in a folder that `named pack` wrote, the machines that its
`closed` names are closed too, which is told on standard error; with --only those of --closed alone are. For example

    $ tools/moves /tmp/packed/model /tmp/packed/initial /tmp/report --names /tmp/packed/names.json --at-most 5"""
import csv
import json
import sys
from argparse import Namespace
from collections.abc import Callable, Iterable, Iterator
from dataclasses import asdict, dataclass, field
from typing import NoReturn

from .choosing_moves import Choice
from .closing import add_only, given_list, with_fleet
from .files import MOST_NUMBERS, InRoom, Room, list_text, read_list, target, write_whole
from .models import Model, closed_flags
from .names import Names
from .problems import Problem, telling
from .program import Program, closed_words
from .reports import read_placement
from .running import run_tool, say
from .texts import counted
from .waves import Move, Stuck, Wave, Waves, moves_between
from .words import Words, file_name, filled, number

BACKWARDS = 20_000  # up to so many moves are also left out one after another, and the better choice is taken
Row = Iterable[object]


def parser() -> Words:
    words = Words("moves", __doc__)
    words.add_program()
    words.add_argument("model", metavar="MODEL", type=file_name)
    words.add_argument("initial", metavar="INITIAL", type=file_name)
    words.add_argument("new", metavar="NEW", type=file_name)
    words.add_argument("--names", metavar="FILE", type=file_name, help="the names.json of MODEL (else numbers are told)")
    words.add_argument("--at-most", metavar="K", type=number(0, MOST_NUMBERS), help="keep the K moves that bring most")
    words.add_argument("--curve", action="store_true", help="tell what 10, 20, 50, 100 .. moves bring")
    words.add_argument("--waves", metavar="K", type=number(1, MOST_NUMBERS), help="cut the moves into waves of at most K")
    words.add_argument("--per-service", metavar="N", type=number(1, MOST_NUMBERS), help="of a service at most N in each wave")
    words.add_argument("--through", action="store_true", help="let a process wait on a third machine, if no wave can be made else")
    words.add_argument("--rules", action="store_true", help="show the resources too that stand for a rule")
    form = words.add_mutually_exclusive_group()
    form.add_argument("--csv", action="store_true", help="print a table of comma-separated values")
    form.add_argument("--json", action="store_true", help="print one JSON object, with the curve if it is asked for")
    words.add_argument("--out", metavar="LIST", type=file_name, help="write the list with these moves there")
    words.add_argument("--closed", metavar="FILE", type=file_name, help="the closed list of NEW")
    add_only(words)
    return words


@dataclass(frozen=True)
class MovesOptions:
    """What `moves` is asked: the names of its files, and which moves are told."""

    model: str
    initial: str
    new: str
    at_most: int | None = None
    curve: bool = False
    waves: int | None = None
    per_service: int | None = None
    through: bool = False
    closed: str | None = None
    only: bool = False
    program: str | None = None


@dataclass(frozen=True)
class Point:
    """What so many moves bring: the cost with them, and the share of the way from the start's cost to that of all moves; none
    if they don't lower the cost."""

    moves: int
    cost: int
    share: float | None


@dataclass(frozen=True)
class MoveList:
    """Moves, the list with them alone, and what it, the start and the new list cost. `share` is the share of the way from the
    start's cost to that of all moves that bring something; `curve` and `waves` are there if they were asked for."""

    moves: list[Move]
    assignment: list[int]
    cost: int
    cost_before: int
    cost_of_new: int
    share: float | None
    moves_in_new: int
    moves_that_bring_something: int
    curve: list[Point] = field(default_factory=list)
    waves: list[Wave] = field(default_factory=list)
    in_no_wave: list[Stuck] = field(default_factory=list)


@dataclass
class Kept:
    """Some of the moves: the list with them alone, its cost, and how many they are."""

    machines: list[int]
    cost: int
    count: int


class Moves:
    """The moves between two lists. `start_cost` and `new_cost` are what the lists cost; `all` has those that bring something.
    Who leaves a closed machine moves first, and whatever it costs."""

    def __init__(self, model: Model, start: list[int], new: list[int], closed: list[bool], start_cost: int,
                 new_cost: int) -> None:
        self.model, self.start, self.start_cost, self.new_cost = model, start, start_cost, new_cost
        self.leaves = frozenset(p for p, (home, machine) in enumerate(zip(start, new)) if home != machine and closed[home])
        self.stay_cost = 2 * (self.start_cost + self.new_cost) + 1
        self.back = Choice(model, start, new, new, self.leaves, self.stay_cost)
        self.in_new = len(self.back.left)
        self.back.run(self.in_new, while_lower=True)
        self.all = Kept(list(self.back.standing.now), self.back.standing.cost, len(self.back.left))
        self.fore = Choice(model, start, self.all.machines, start, self.leaves, self.stay_cost)

    def at_most(self, count: int) -> Kept:
        """The choice of at most so many moves that costs least, as far as it is known. Counts have to rise from call to
        call."""
        if count >= self.all.count:
            return self.all
        self.fore.run(count)
        moved: set[int] = set()
        found: tuple[int, set[int]] = self.start_cost + self.stay_cost * len(self.leaves), set()
        for group, cost in self.fore.steps:
            moved = moved | set(group)
            if len(moved) > count:
                break
            found = min(found, (cost, moved), key=lambda one: one[0])
        if self.all.count - count <= BACKWARDS:
            self.back.run(self.in_new - count)
            home: set[int] = set()
            moved = {p for p, (a, b) in enumerate(zip(self.start, self.all.machines)) if a != b}
            for group, cost in self.back.steps:
                home |= set(group)
                if len(moved - home) <= count and cost < found[0]:
                    found = cost, moved - home
        cost, moved = found
        machines = [b if p in moved else a for p, (a, b) in enumerate(zip(self.start, self.all.machines))]
        return Kept(machines, cost - self.stay_cost * len(self.leaves - moved), len(moved))

    def curve(self, most: int) -> list[Kept]:
        """What 10, 20, 50, 100 .. moves bring, up to so many, and all."""
        counts = [first * 10**power for power in range(1, 5) for first in (1, 2, 5)]
        return [self.at_most(count) for count in counts if count < min(most, self.all.count)] + [self.at_most(most)]

    def waves(self, kept: Kept, closed: list[bool], most: int, per_service: int | None, through: bool) -> Waves:
        """The moves to a kept list in waves."""
        leaves = frozenset(p for p in self.leaves if kept.machines[p] != self.start[p])
        return Waves(self.model, self.start, kept.machines, closed, leaves, self.stay_cost, most, per_service, through)

    def share(self, cost: int) -> float | None:
        """The share of the way from the start's cost down to that of all moves; None if they don't lower the cost."""
        way = self.start_cost - self.all.cost
        return (self.start_cost - cost) / way if way > 0 else None


class Judge:
    """Judges lists by `reassign check`."""

    def __init__(self, program: Program, model: str, initial: str, closed: str | None, room: InRoom) -> None:
        self.program, self.room, self.files, self.closing = program, room, (model, initial), closed_words(closed)

    def cost(self, machines: list[int], name: str) -> int:
        """What a list costs. One that the program refuses ends the tool, with its name in the program's line."""
        write_whole(self.room("list"), [list_text(machines)])
        with telling(lambda line: line.replace(self.room("list"), name, 1)):
            return self.program.numbers("check", *self.files, self.room("list"), *self.closing)["cost"]

    def confirm(self, kept: Kept) -> Kept:
        """Judges a list that is printed, whose cost is known."""
        if self.cost(kept.machines, "the list with these moves") != kept.cost:
            raise Problem(f"the list with {kept.count} moves doesn't cost {kept.cost}: is it the program of this package's "
                          "version?", 1)
        return kept


def found_moves(options: MovesOptions, names: Names | None, room: InRoom,
                tell: Callable[[str], object] = say) -> tuple[MoveList, Names]:
    """The moves that the options ask for, and the names, which are numbers if there are none."""
    given = given_list(options, names, room)
    judge = Judge(Program(options.program), options.model, options.initial, given, room)
    start, new = read_list(options.initial), read_placement(options.new)
    start_cost, model = judge.cost(start, options.initial), Model.read(options.model)
    names = names or Names.numbers(model)
    closed = with_fleet(options, given, names, room, tell)
    judge.closing = closed_words(closed)
    new_cost, flags = judge.cost(new, options.new), closed_flags(model, closed)
    found = Moves(model, start, new, flags, start_cost, new_cost)
    most = found.all.count if options.at_most is None else options.at_most
    curve = [judge.confirm(one) for one in found.curve(most)] if options.curve else []
    kept = curve[-1] if curve else judge.confirm(found.at_most(most))
    waves, stuck = [], []
    if options.waves:
        brought = found.waves(kept, flags, options.waves, options.per_service, options.through)
        waves = [Wave(moves, machines, judge.cost(machines, f"the list after wave {number}"))
                 for number, (moves, machines) in enumerate(brought.waves, 1)]
        stuck = brought.stuck()
        kept = Kept(list(brought.now), waves[-1].cost if waves else start_cost, sum(a != b for a, b in zip(start, brought.now)))
    return MoveList(moves_between(model, start, kept.machines), kept.machines, kept.cost, start_cost, found.new_cost,
                    found.share(kept.cost), found.in_new, found.all.count,
                    [Point(one.count, one.cost, found.share(one.cost)) for one in curve], waves, stuck), names


def work(words: Namespace) -> int:
    if words.waves and words.curve:
        raise Problem("--waves and --curve don't go together; moves --help shows how to call it", 2)
    if not words.waves and (words.through or words.per_service):
        raise Problem("--per-service and --through are for --waves; moves --help shows how to call it", 2)
    out = words.out and target(words.out, words.model, words.initial, words.new, words.names, words.closed)
    names = Names.read(words.names, words.model) if words.names else None
    with Room() as room, telling(names.line if names else None):
        found, names = found_moves(filled(MovesOptions, words), names, room)
    if out:
        write_whole(out, [list_text(found.assignment)])
    if words.json:
        print_json(found, names, words)
    elif words.curve:
        print_rows(curve_rows(found.curve, words.csv), words.csv)
    else:
        if not words.csv:
            tell(found, words.waves)
        rows: Iterator[Row] = move_rows(found.moves, names, words.rules)
        if words.waves:
            rows = wave_rows(found.waves, names, words.rules)
        if words.csv or found.moves or found.waves:
            print_rows(rows, words.csv, keep=4 + bool(words.waves))
        tell_left(found.in_no_wave, names, say if words.csv else lambda line: print(line))
    return 11 if found.in_no_wave else 0


def wave_rows(waves: list[Wave], names: Names, with_rules: bool) -> Iterator[Row]:
    """A table of moves, wave by wave."""
    for number, wave in enumerate(waves, 1):
        header, *rows = move_rows(wave.moves, names, with_rules)
        if number == 1:
            yield "wave", *header
        yield from ((number, *row) for row in rows)


def tell_left(stuck: list[Stuck], names: Names, tell: Callable[[str], object]) -> None:
    """Tells what couldn't be brought into a wave, and why."""
    for process, start, end, service, why in left_of(stuck, names):
        tell(f"in no wave: process {process} of service {service} from {start} to {end}: {why}")


def left_of(stuck: list[Stuck], names: Names) -> Iterator[tuple[str, str, str, str, str]]:
    """The processes that are left, by names, with the rule in the way."""
    for one in stuck:
        move = one.move
        yield (names.processes[move.process], names.machines[move.start], names.machines[move.end], names.services[move.service],
               names.cause(*one.rule) if one.rule else "only with others, more than a wave takes")


def move_rows(moves: list[Move], names: Names, with_rules: bool) -> Iterator[tuple[str, ...]]:
    """A table of moves, in the order of the processes."""
    shown = names.shown(with_rules)
    yield "process", "service", "from", "to", *(names.resources[r] for r in shown)
    for one in moves:
        yield (names.processes[one.process], names.services[one.service], names.machines[one.start], names.machines[one.end],
               *(names.amount(r, one.required[r]) for r in shown))


def curve_rows(curve: list[Point], plain: bool) -> Iterator[Row]:
    yield "moves", "cost", "share"
    for one in curve:
        told = "" if one.share is None else f"{one.share:.4f}" if plain else f"{100 * one.share:.1f} %"
        yield one.moves, one.cost if plain else f"{one.cost:,}", told


def print_rows(rows: Iterable[Row], plain: bool, keep: int = 4) -> None:
    """Prints a table: as comma-separated values, or in columns, without those resources of which nobody requires any, which come
    after so many columns."""
    if plain:
        csv.writer(sys.stdout, lineterminator="\n").writerows(rows)
        return
    columns = [list(map(str, column)) for column in zip(*rows)]
    columns = columns[:keep] + [column for column in columns[keep:] if set(column[1:]) - {"0"}]
    widths = [max(map(len, column)) for column in columns]
    for row in zip(*columns):
        print("  ".join(cell.ljust(width) for cell, width in zip(row, widths)).rstrip())


def tell(found: MoveList, has_waves: bool) -> None:
    kept, everything = len(found.moves), found.moves_that_bring_something
    cut = f" in {counted(len(found.waves), 'wave')}" if has_waves else ""
    print(f"{kept:,} of {counted(len(found.assignment), 'process', 'processes')} move{cut}: cost {found.cost_before:,} before, "
          f"{found.cost:,} after")
    dropped = found.moves_in_new - everything
    if dropped:
        print(f"left out because they bring nothing: {counted(dropped, 'move')} of {found.moves_in_new:,}")
    if kept < everything and found.share is not None:
        print(f"of the way to the cost of all {everything:,} moves: {100 * found.share:.1f} %")
    for number, wave in enumerate(found.waves, 1):
        print(f"wave {number}: {counted(len(wave.moves), 'move')}, cost {wave.cost:,} after it")


def print_json(found: MoveList, names: Names, words: Namespace) -> None:
    def listed(moves: list[Move]) -> list[dict[str, object]]:
        header, *rows = move_rows(moves, names, words.rules)
        return [{**dict(zip(header[:4], row)), "requires": dict(zip(header[4:], row[4:]))} for row in rows]
    told: dict[str, object] = {
        "cost_before": found.cost_before, "cost_after": found.cost, "cost_of_new": found.cost_of_new,
        "moves_in_new": found.moves_in_new, "moves_that_bring_something": found.moves_that_bring_something,
        "moves": listed(found.moves),
    }
    if words.curve:
        told["curve"] = [asdict(one) for one in found.curve]
    if words.waves:
        told["waves"] = [{"cost_after": wave.cost, "moves": listed(wave.moves)} for wave in found.waves]
        told["in_no_wave"] = [dict(zip(("process", "from", "to", "service", "rule"), one))
                              for one in left_of(found.in_no_wave, names)]
    json.dump(told, sys.stdout, ensure_ascii=False)
    print()


def main(words: list[str] | None = None) -> NoReturn:
    run_tool(parser(), work, words)
