"""Looks for the best list in the time that one has, by the proved search `anneal`, and goes on from a list that is there.

Whatever it keeps is feasible from INITIAL, the true start. It ends after --seconds, by the clock: short pilots tell how fast
tries are, and the search is cut into pieces, calls of `anneal` that go on, each with its part of the cooling. BEST has the best
list after each, whole. If BEST is there already it goes on from it, at a lower heat; machines of the closed list that were
emptied there stay empty. Ctrl-C and SIGTERM end it well. With --tries it is a function of its words, on any machine.

In place of MODEL and INITIAL may stand FLEET, a folder that `named pack` wrote. Its closed machines are closed for a MODEL of
such a folder too; with --only those of --closed alone are.

In the end `reassign check` judges BEST, and a sentence says what was gained. Standard error tells meanwhile how far it is: the
time, the cost, the part of the gap that is left (the start's cost less the bound), tries a second, and the heat, which is about
by how much a move may raise the cost. --log FILE adds a JSON object for each piece, and `plot FILE ..` draws these.

On several machines: --list HOSTS writes a command a line, each with another seed and a BEST of its own (BEST.1, BEST.2 ..), for
as many hosts as HOSTS says, a number or a file with one in each line; the hosts share the files. With --collect BEST becomes
the cheapest of those lists, by this machine's `check`. For example

    $ tools/improve examples/sample/model examples/sample/initial --out /tmp/better --seconds 3"""
import argparse
import glob
import json
import os
import re
import resource
import shlex
import time
from collections.abc import Callable, Sequence
from dataclasses import asdict, dataclass, replace
from typing import NoReturn, TypeVar

from .closing import add_only, fleet_closed, given_list, with_fleet
from .files import (InRoom, Numbers, Room, for_a_while, list_text, lock, read_closed, read_list, read_whole, remove, target,
                    write_whole)
from .high_stays import with_high_stays
from .improve_pieces import Cooling, Heat, Piece, Timed, pieces_of_tries
from .improve_progress import Progress
from .models import Model
from .names import Names
from .problems import Problem, Stopped, telling
from .program import COSTS, Costs, Program, closed_words
from .running import command_of, no_more_stops, run_tool, say
from .texts import counted, percent
from .words import LARGEST_SEED, MOST_LOTS, Words, any_file_name, file_name, filled, number, processors

MOST_TRIES, MOST_HOSTS = 10**12, 10_000
HEADS = (*COSTS, "bound", "heat", "tries", "done", "assignment", "last")  # of the lines of `anneal`
Answer = TypeVar("Answer")


@dataclass(frozen=True)
class ImproveOptions:
    """What `improve` is asked: the names of its files, and how it searches. `initial` is None if `model` is a folder of `named`."""

    model: str
    initial: str | None
    out: str
    seconds: float = 60.0
    tries: int | None = None
    workers: int | None = None
    seed: int = 1
    closed: str | None = None
    only: bool = False
    names: str | None = None
    log: str | None = None
    program: str | None = None
    anneal: str | None = None


@dataclass(frozen=True)
class Improved:
    """The best list and its costs, what the start costs, the bound, and the part of the gap between them that is left; how many
    processes move, how many tries there were, and whether no move of a single process makes the list cheaper."""

    assignment: list[int]
    costs: Costs
    start: int
    bound: int
    gap_left: float
    moved: int
    tries: int
    is_least: bool


def parser() -> Words:
    words = Words("improve", __doc__)
    words.add_program()
    words.add_argument("--anneal", metavar="FILE", type=any_file_name, help="the program anneal (else as --program, by ANNEAL)")
    words.add_argument("model", metavar="MODEL|FLEET", type=file_name)
    words.add_argument("initial", metavar="INITIAL", type=file_name, nargs="?", help="the true start")
    words.add_argument("--out", metavar="BEST", type=file_name, required=True, help="the best list")
    ends = words.add_mutually_exclusive_group()
    ends.add_argument("--seconds", metavar="S", type=seconds, default=60.0, help="end after so many seconds (60)")
    ends.add_argument("--minutes", metavar="M", dest="seconds", type=minutes, help="end after so many minutes")
    ends.add_argument("--tries", metavar="N", type=number(1, MOST_TRIES), help="make so many tries, however long they take")
    words.add_argument("--workers", metavar="W", type=number(1, MOST_LOTS),
                       help="workers that search (as many as processors; with --tries 1)")
    words.add_argument("--seed", metavar="S", type=number(0, LARGEST_SEED), default=1, help="seed of the search (1)")
    words.add_argument("--closed", metavar="FILE", type=file_name, help="machines that nobody may enter")
    add_only(words)
    words.add_argument("--names", metavar="FILE", type=any_file_name, help="the names of the model, as `named pack` writes them")
    words.add_argument("--log", metavar="FILE", type=file_name, help="add a JSON object for each piece to FILE")
    words.add_argument("--json", action="store_true", help="print one JSON object")
    hosts = words.add_mutually_exclusive_group()
    hosts.add_argument("--list", metavar="HOSTS", type=file_name, help="write a command for each host, and run nothing")
    hosts.add_argument("--collect", action="store_true", help="take the cheapest of BEST.1, BEST.2 .., and run nothing")
    return words


def minutes(word: str) -> float:
    """Minutes as seconds."""
    return 60.0 * number(1, 1_000_000)(word)


def seconds(word: str) -> float:
    """Seconds, which needn't be whole."""
    if not re.fullmatch(r"[0-9]{1,8}(\.[0-9]{1,6})?", word) or not float(word):
        raise argparse.ArgumentTypeError(f"{word!r} is not a number of seconds")
    return float(word)


class Search:
    """The search for a better list: its files, the best list so far, and the calls of the programs."""

    def __init__(self, options: ImproveOptions, room: InRoom, names: Names | None = None, begun: float | None = None) -> None:
        self.begun = begun or time.monotonic()
        self.options, self.room, self.program = options, room, Program(options.program)
        self.workers = options.workers or (1 if options.tries else processors())
        self.anneal = Program(options.anneal, "anneal")
        assert options.initial
        self.start = options.initial
        inputs = self.program.name, self.anneal.name, options.model, self.start, options.closed, options.names
        self.best = target(options.out, options.log, *inputs)
        if options.log:
            target(options.log, *inputs)
        given = given_list(options, names, room)
        self.closing = closed_words(with_fleet(options, given, names, room) if names else given)
        at, before = time.monotonic(), used()
        self.start_cost = self.check(self.start).cost
        self.reading, self.reading_used = time.monotonic() - at, used() - before  # seconds by the clock, and of processor time
        self.initial = read_list(self.start)
        self.processes, self.machines = len(self.initial), machines_of(options.model)
        self.model, self.cost, self.now = options.model, self.start_cost, self.initial
        self.last: list[int] | None = None
        self.bound: int | None = None
        self.heat: int | None = None
        self.tries, self.pieces, self.rate, self.seconds = 0, 0, 0.0, options.seconds
        self.is_least = False  # whether no move of a single process makes the best list cheaper
        self.had_list = os.path.exists(self.best)
        if self.had_list:
            self.cost, self.now = self.check(self.best).cost, read_list(self.best)
            self.keep_empty()

    def check(self, name: str) -> Costs:
        return self.program.costs(self.options.model, self.start, name, *self.closing)

    def keep_empty(self) -> None:
        """If the best list has left closed machines, the search has a model in which staying there costs most."""
        if not self.closing:
            return
        closed, there = read_closed(self.closing[1], self.machines), set(self.now)
        if any(home in closed and home not in there for home in self.initial):
            model = Model.read(self.options.model)
            flags = [machine in closed for machine in range(model.machines)]
            self.model = self.room("model")
            write_whole(self.model, with_high_stays(model, self.initial, flags).pieces())
            self.bound = self.found_bound()

    def found_bound(self) -> int:
        return self.program.numbers("bound", self.options.model, self.start, *self.closing)["bound"]

    def passed(self) -> float:
        return time.monotonic() - self.begun

    def left(self) -> float:
        """Seconds that are left for the search. What comes after it takes about as long as the check of the start."""
        return self.seconds - self.passed() - 1.2 * self.reading - 0.05

    # Calls

    def descend(self) -> None:
        """A descent from the start, or from the list that is there: a first list, however little time there is."""
        self.call(0, (0, 0), self.now, has_limit=False)

    def call(self, tries: int, heat: Heat | None, begin: list[int] | None = None, has_limit: bool = True,
             limit: float | None = None) -> Piece | None:
        """A piece, which begins where the last one stood; at INITIAL if it has to choose the heat; at the best list without heat.
        Answers None if its time was over before it was."""
        begin = begin or (self.initial if heat is None else self.last if heat[0] and self.last else self.now)
        write_whole(self.room("from"), [list_text(begin)])
        seed = (self.options.seed + self.pieces) % 2**64
        options = ["--heat", "{}:{}".format(*heat)] if heat else []
        at = time.monotonic()
        limit = limit or (max(self.left(), 0.01) if has_limit and not self.options.tries else None)
        status, lines, _ = self.anneal.run(self.model, self.start, "--from", self.room("from"), *self.closing, *options,
                                           "--workers", self.workers, f"{seed}:{tries}", limit=limit)
        if status is None:
            return None
        heads, values = zip(*(line.partition(" ")[::2] for line in lines)) if lines else ((), ())
        try:
            if heads != HEADS:
                raise ValueError
            told = dict(zip(heads, map(int, values[:10])))
            found, last = (list(map(int, value.split())) for value in values[10:])
        except ValueError:
            raise self.anneal.no_program("doesn't print what anneal prints") from None
        self.last = last if heat and heat[1] else None if heat is None and self.had_list else found
        piece = Piece(tries, tries / max(time.monotonic() - at, 1e-3), heat or (told["heat"], 0))
        self.bound = told["bound"] if self.bound is None else self.bound
        self.pieces, self.tries, self.rate, self.heat = self.pieces + 1, self.tries + tries, piece.rate, piece.heat[1]
        self.keep(found, told["cost"], self.model == self.options.model)
        self.log(piece, told["cost"], seed)
        return piece

    def solve(self, proposals: int, has_limit: bool = True) -> float | None:
        """A run of `solve` from INITIAL. Answers the seconds that a proposal took, or None if its time was over before it was."""
        before, at = used(), time.monotonic()
        words = "solve", self.options.model, self.start, *self.closing, f"{self.options.seed}:{proposals}"
        limit = max(self.left(), 0.01) if has_limit else None
        status, head, _ = self.program.run(*words, limit=limit, lines=10)
        if status is None:
            return None
        self.bound = int(head[6].split()[1])
        self.keep(list(map(int, head[8].split()[1:])), int(head[0].split()[1]), False)
        processor, clock = used() - before, time.monotonic() - at
        return max(processor - self.reading_used, 0.2 * processor) / proposals * max(1.0, clock / max(processor, 0.01))

    def keep(self, found: list[int], cost: int, is_least: bool) -> None:
        """Keeps a list if it is the best."""
        if self.model != self.options.model:  # in which stays cost more
            write_whole(self.room("found"), [list_text(found)])
            cost = self.check(self.room("found")).cost
        if cost < self.cost or cost == self.cost and is_least and not self.is_least:
            self.cost, self.now, self.is_least = cost, found, is_least
            write_whole(self.best, [list_text(found)])

    def log(self, piece: Piece, found: int, seed: int) -> None:
        name = self.options.log
        if not name:
            return
        line = {"piece": self.pieces, "seconds": round(self.passed(), 3), "cost": self.cost, "bound": self.bound,
                "start": self.start_cost, "tries": piece.tries, "rate": round(piece.rate), "heat": list(piece.heat), "found": found,
                "seed": seed, "workers": self.workers}
        try:
            with open(name, "a", encoding="utf-8") as file:
                file.write(json.dumps(line) + "\n")
        except OSError as fault:
            raise Problem(f"write fault: {name}: {fault.strerror}", 7) from None

    def go(self) -> None:
        cooling = Cooling(self.machines, self.had_list)
        if self.options.tries:
            pieces_of_tries(self.call, cooling, self.options.tries)
        else:
            Timed(self, cooling, self.reading).go()

    # The end

    def gap_left(self) -> float | None:
        """The part of the gap that is left, or None if nobody knows the bound yet."""
        way = self.start_cost - self.bound if self.bound is not None else 0
        return None if self.bound is None else (self.cost - self.bound) / way if way > 0 else 0.0

    def end(self) -> Improved:
        """Judges the best list, and answers what was gained."""
        costs = self.check(self.best)
        self.bound = self.found_bound() if self.bound is None else self.bound
        moved = sum(a != b for a, b in zip(self.initial, self.now))
        return Improved(self.now, costs, self.start_cost, self.bound, self.gap_left() or 0.0, moved, self.tries, self.is_least)


def tell(found: Improved, as_json: bool) -> None:
    """Tells what was gained."""
    processes, least = len(found.assignment), " no move of a single process makes it cheaper," if found.is_least else ""
    sentence = (f"The cost fell from {found.start:,} to {found.costs.cost:,}: {percent(found.gap_left)} of the gap to the bound "
                f"{found.bound:,} is left, and {found.moved:,} of {counted(processes, 'process', 'processes')} move. It is proved "
                f"that the list breaks no rule, its cost is exact,{least} and no list costs less than the bound.")
    if as_json:
        whole = {"start": found.start, **asdict(found.costs), "bound": found.bound, "gap_left": found.gap_left,
                 "moved": found.moved, "processes": processes, "tries": found.tries, "is_least": found.is_least,
                 "sentence": sentence}
        print(json.dumps(whole))
    else:
        print("".join(f"{name} {value}\n" for name, value in asdict(found.costs).items()) + sentence)


def used() -> float:
    """Seconds of processor time of what has been called so far."""
    took = resource.getrusage(resource.RUSAGE_CHILDREN)
    return took.ru_utime + took.ru_stime


def machines_of(name: str) -> int:
    """How many machines a model has, which `check` has read."""
    numbers = Numbers(name, 4)
    numbers.take(2 * numbers.one())
    return numbers.one()


def with_files(options: ImproveOptions) -> tuple[ImproveOptions, Names | None]:
    """The options, with the files of the fleet that they name; and the names, or None."""
    folder = os.path.dirname(options.model)
    if options.initial is None:
        folder = options.model
        if not os.path.isfile(os.path.join(folder, "names.json")):
            raise Problem(f"{folder} is no folder of `named pack`, and INITIAL is missing; improve --help shows how to call it", 2)
        options = replace(options, model=os.path.join(folder, "model"), initial=os.path.join(folder, "initial"),
                          names=options.names or os.path.join(folder, "names.json"))
    if not options.names and not options.only and fleet_closed(options.model):
        options = replace(options, names=os.path.join(folder, "names.json"))
    return options, Names.read(options.names, options.model) if options.names else None


# Several machines


def write_commands(options: ImproveOptions, hosts: str) -> None:
    """A command for each host, with another seed and a list of its own."""
    if re.fullmatch("[0-9]{1,5}", hosts) and not os.path.exists(hosts):
        count = int(hosts)
    else:
        count = sum(bool(line.strip()) for line in read_whole(hosts, 1 << 22).splitlines())
    if not 1 <= count <= MOST_HOSTS:
        raise Problem(f"--list {hosts}: there are {count:,} hosts; possible are 1 to {MOST_HOSTS:,}", 2)
    full = os.path.abspath
    words = [full(options.model)] + ([full(options.initial)] if options.initial else [])
    for option in ("closed", "names", "program", "anneal"):
        name = getattr(options, option)
        words += [f"--{option}", full(name)] if name else []
    words += ["--tries", str(options.tries)] if options.tries else ["--seconds", f"{options.seconds:.6f}"]
    words += [*(["--only"] if options.only else []), *(["--workers", str(options.workers)] if options.workers else [])]
    for host in range(1, count + 1):
        own = ["--out", f"{full(options.out)}.{host}", "--seed", str((options.seed + 1_000_000 * (host - 1)) % 2**64)]
        print(shlex.join([*command_of("improve"), *words, *own]))


def collect(search: Search) -> int:
    """Takes the cheapest of the hosts' lists. Answers the status: 11 if there is one that isn't feasible here."""
    out = search.options.out
    names = [name for name in glob.glob(f"{glob.escape(out)}.*") if re.fullmatch("[0-9]+", name.rpartition(".")[2])]
    if not names:
        raise Problem(f"there is no {out}.1, nor any other list of a host")
    status = 0
    for name in sorted(names, key=lambda name: (len(name), name)):
        try:
            cost = search.check(name).cost
            say(f"{name} costs {cost}")
            search.keep(read_list(name), cost, False)
        except Problem as problem:
            say(problem.line)
            status = 11
    return status


def locked(search: Search, work: Callable[[Search], Answer]) -> Answer:
    """Lets `work` do something with a search, while no other call writes BEST. If no problem comes up, BEST is there in the end.
    Answers what it does."""
    with lock(f"{search.best}.lock", search.options.out) as held:
        for_a_while(held.name)
        try:
            answer = work(search)
            if not os.path.exists(search.best):
                write_whole(search.best, [list_text(search.now)])
            return answer
        finally:
            remove(held.name)


def improved(options: ImproveOptions, room: InRoom) -> Improved:
    """Searches, and answers what came of it."""
    search = Search(options, room)
    locked(search, Search.go)
    return search.end()


def watched(search: Search) -> None:
    """Searches until that is over or stopped, and tells how far it is."""
    try:
        with Progress(search):
            search.go()
    except Stopped:
        no_more_stops()
        say(f"stopped; {search.options.out} has the best list so far")


def work(words: argparse.Namespace) -> int:
    options = filled(ImproveOptions, words)
    if words.list:
        write_commands(options, words.list)
        return 0
    options, names = with_files(options)
    with Room() as room, telling(names.line if names else None):
        search = Search(options, room, names, time.monotonic() - age())
        status = locked(search, collect if words.collect else watched) or 0
        no_more_stops()
        tell(search.end(), words.json)
    return status


def age() -> float:
    """Seconds since this process began."""
    ticks = int(read_whole("/proc/self/stat").rpartition(b")")[2].split()[19])
    return time.clock_gettime(time.CLOCK_BOOTTIME) - ticks / os.sysconf("SC_CLK_TCK")


def main(words: list[str] | None = None) -> NoReturn:
    run_tool(parser(), work, words)
