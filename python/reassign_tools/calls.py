"""Calls for scripts and notebooks, with the tools' names. Each finds the program as the tools do, if none is named.

A model is the name of its file, or a Model; a list is the name of its file, or the machine of each process (a list, a tuple, an
array); a closed list is the name of its file, or machine numbers, of which a set will do. Names of files may be paths. What an
argument can't be is a TypeError or a ValueError that names it; whatever else can't be done is a Problem.

Nothing is printed. `progress` is called with each line that the tool would say on standard error while it works."""
import shlex
from collections.abc import Callable, Iterable, Mapping, Sequence
from dataclasses import dataclass
from typing import SupportsIndex

from .arguments import Closed, File, Given, MachineList, file_if, file_of, flag, items_of, positive, text_if, whole, whole_if
from .files import MOST_NUMBERS
from .evacuate import BUDGET, CHECKS, MOST_BUDGET, MOST_CHECKS, Evacuated, EvacuateOptions, evacuated
from .improve import MOST_TRIES, Improved, ImproveOptions, improved
from .models import Model
from .moves import MoveList, MovesOptions, found_moves
from .names import Names
from .problems import Problem, WrongValue
from .program import Costs, Program, closed_words, slack_words
from .plot import PlotOptions, picture_of
from .race import made_plan, raced
from .race_plan import instances_of, solver_of
from .race_rows import Row
from .repair_words import MOST_TURNS, Repair, RepairOptions
from .reports import solve as run_solve
from .states import Cause
from .summary import MOST_TOP, Summary, SummaryOptions, summed
from .words import LARGEST_SEED, MOST_LOTS, MOST_PROPOSALS, look_at_run_words

Lot = str | tuple[SupportsIndex, SupportsIndex]  # the program's word for a lot, or its seed and its budget
Progress = Callable[[str], object]


@dataclass(frozen=True)
class Bound:
    """What each list costs at least, and its two parts."""

    bound: int
    load: int
    balance: int


@dataclass(frozen=True)
class Solved:
    """What a run came to: the costs of its best assignment, the lower bound, after how many entries the best was reached, and
    the machine of each process there."""

    costs: Costs
    bound: int
    best_at: int
    assignment: list[int]


@dataclass(frozen=True)
class Repaired:
    """The list after a repair, the first rule that it still breaks, in the program's words, or None, and how many proposals were
    tried."""

    assignment: list[int]
    rule: Cause | None
    tries: int

    @property
    def is_feasible(self) -> bool:
        """Whether the list breaks no rule, as an initial list."""
        return self.rule is None


def silent(line: str) -> None:
    """Progress that nobody asked for."""


def lot_words(lots: Sequence[Lot]) -> list[str]:
    """The words of lots. Raises ValueError if the program doesn't take them."""
    def word(at: int, lot: object) -> str:
        if isinstance(lot, str):
            return lot
        pair = items_of(f"lots[{at}]", lot, "a seed and a budget, or the program's word for them")
        if len(pair) != 2:
            raise WrongValue(f"lots[{at}] has {len(pair)} items, and has to be a seed and a budget")
        seed, budget = (whole(f"lots[{at}]", one, 0, most) for one, most in zip(pair, (LARGEST_SEED, MOST_PROPOSALS)))
        return f"{seed}:{budget}"
    words = [word(at, lot) for at, lot in enumerate(items_of("lots", lots, "a list of lots"))]
    try:
        look_at_run_words("lots", words)
    except Problem as problem:
        raise WrongValue(problem.line) from None
    return words


def run_words(slack: int, closed: str | None, draws: int | None, lots: Sequence[Lot]) -> list[str]:
    drawn = whole_if("draws", draws, 1, 2)
    return [*slack_words(whole("slack", slack, 0, LARGEST_SEED)), *closed_words(closed),
            *(["--draws", str(drawn)] if drawn else []), *lot_words(lots)]


def program_of(program: File | None) -> Program:
    return Program(file_if("program", program))


def check(model: File | Model, initial: MachineList, new: MachineList | None = None, closed: Closed | None = None,
          program: File | None = None) -> Costs:
    """Judges a list against the rules, and says what it costs, as moved from an initial one.

    Without `new` the initial list itself is judged. Raises Problem with the line and the status of `reassign check`: 3 if a file
    can't be read, 4 if the model isn't one, 5 if a list isn't one, 6 if a list breaks a rule, 8 if there wasn't enough memory,
    10 if the closed list isn't one.
    """
    with Given() as given:
        model, initial, closing = given.model(model), given.list("initial", initial), closed_words(given.closed(closed))
        return program_of(program).costs(model, initial, initial if new is None else given.list("new", new), *closing)


def bound(model: File | Model, initial: MachineList, closed: Closed | None = None, program: File | None = None) -> Bound:
    """What each feasible list costs at least, as moved from an initial one. Raises Problem as `check` does."""
    with Given() as given:
        words = given.model(model), given.list("initial", initial), *closed_words(given.closed(closed))
        found = program_of(program).numbers("bound", *words)
        return Bound(found["bound"], found["load"], found["balance"])


def solve(model: File | Model, initial: MachineList, lots: Sequence[Lot], slack: int = 0, closed: Closed | None = None,
          draws: int | None = None, report: File | None = None, program: File | None = None) -> Solved:
    """Looks for a list that costs less, by one run.

    Each of the `lots`, up to sixteen, is one worker: (SEED, BUDGET), or the program's word for it. `report` names a file that
    gets the whole report. Raises Problem as `check` does, and with status 7 if the report can't be written.
    """
    with Given() as given:
        words = given.model(model), given.list("initial", initial), *run_words(slack, given.closed(closed), draws, lots)
        head = run_solve(program_of(program), *words, keep=file_if("report", report))
        assert head
        return Solved(head.costs, head.bound, head.best_at, head.assignment)


def verify(model: File | Model, initial: MachineList, report: File, lots: Sequence[Lot], slack: int = 0,
           closed: Closed | None = None, draws: int | None = None, program: File | None = None) -> int:
    """Judges the report of a run: whether it is one of a legal, whole run with these lots and options.

    `report` is the name of its file. Returns the number of its entries. Raises Problem as `check` does, and with status 9 and
    the wrong line if the report is none.
    """
    with Given() as given:
        words = (given.model(model), given.list("initial", initial), file_of("report", report),
                 *run_words(slack, given.closed(closed), draws, lots))
        _, (line,), _ = program_of(program).run("verify", *words)
        return int(line.split()[1])


def repair(model: File | Model, initial: MachineList, seed: int = 1, turns: int = MOST_TURNS, idle: int = 100,
           closed: Closed | None = None, only: bool = False, program: File | None = None,
           progress: Progress | None = None) -> Repaired:
    """Looks for a list that breaks no rule, from one that does, by runs of `reassign repair` that aim at the broken rules.

    It ends when there is one, after so many `turns`, or if nothing has fallen in so many (`idle`). The machines are closed too
    that a fleet has closed to whose model the file `model` belongs, unless `only` says no. The list is an initial one from then
    on. Raises Problem as `check` does.
    """
    with Given() as given:
        options = RepairOptions(
            given.model(model), given.list("initial", initial), given.room("repaired"), given.closed(closed), None,
            flag("only", only), whole("turns", turns, 1, MOST_TURNS), whole("idle", idle, 1, MOST_TURNS),
            whole("seed", seed, 0, LARGEST_SEED), file_if("program", program))
        found = Repair(options, given.room, None, progress or silent)
        judged, _, _ = found.go()
        return Repaired(list(found.now), None if judged.feasible else judged.cause, found.tries)


def evacuate(model: File | Model, initial: MachineList, closed: Closed, budget: int = BUDGET, workers: int | None = None,
             checks: int = CHECKS, seed: int = 1, only: bool = False, program: File | None = None, anneal: File | None = None,
             progress: Progress | None = None) -> Evacuated:
    """Moves the processes of closed machines elsewhere.

    If some stay, others make room in turns of `budget` tries by so many `workers` (as many as processors); 0 moves nobody else.
    Those who needn't have moved go back, by at most so many `checks`. `only` is as in `repair`. Raises Problem as `check` does.
    """
    with Given() as given:
        options = EvacuateOptions(
            given.model(model), given.list("initial", initial), given.closed(closed), given.room("emptied"), None,
            whole("budget", budget, 0, MOST_BUDGET), whole_if("workers", workers, 1, MOST_LOTS),
            whole("checks", checks, 0, MOST_CHECKS), whole("seed", seed, 0, LARGEST_SEED), flag("only", only), None,
            file_if("program", program), file_if("anneal", anneal))
        return evacuated(options, None, given.room, progress or silent)[0]


def moves(model: File | Model, initial: MachineList, new: MachineList, at_most: int | None = None, closed: Closed | None = None,
          program: File | None = None, *, curve: bool = False, waves: int | None = None, per_service: int | None = None,
          through: bool = False, only: bool = False, progress: Progress | None = None) -> MoveList:
    """Tells which processes move between two lists, without the moves that bring nothing.

    `new` may be the name of a report too. With `at_most` those so many moves are kept that bring most. `curve` tells what 10, 20,
    50 .. moves bring. With `waves` the moves come in waves of at most so many, of a service at most `per_service` in each; with
    `through` a process may wait on a third machine. `only` is as in `repair`. Raises Problem as `check` does.
    """
    if waves is None and (per_service is not None or flag("through", through)) or waves is not None and flag("curve", curve):
        raise WrongValue("waves goes with per_service and through, and not with curve")
    with Given() as given:
        options = MovesOptions(
            given.model(model), given.list("initial", initial), given.list("new", new),
            whole_if("at_most", at_most, 0, MOST_NUMBERS), flag("curve", curve), whole_if("waves", waves, 1, MOST_NUMBERS),
            whole_if("per_service", per_service, 1, MOST_NUMBERS), flag("through", through), given.closed(closed),
            flag("only", only), file_if("program", program))
        return found_moves(options, None, given.room, progress or silent)[0]


def summary(report: MachineList, model: File | Model, initial: MachineList, closed: Closed | None = None,
            names: File | Names | None = None, lots: Sequence[Lot] | None = None, slack: int = 0, draws: int | None = None,
            rules: bool = False, top: int = 5, program: File | None = None) -> Summary:
    """Sums up a report, or any list, beside the start from which its processes move.

    If the `lots` of the run are given, with its slack, closed list and drawing, `reassign verify` judges the report first.
    With `names` resources have their names; those that stand for a rule are left out then, unless `rules` asks for them. The
    `top` fullest machines are told. Raises Problem as `check` does, and with status 9 if the report isn't one of these files.
    """
    with Given() as given:
        files = given.list("report", report), given.model(model), given.list("initial", initial)
        shut = given.closed(closed)
        words = None if lots is None else shlex.join(run_words(slack, shut, draws, lots))
        options = SummaryOptions(*files, shut, words, flag("rules", rules), whole("top", top, 1, MOST_TOP),
                                 file_if("program", program))
        return summed(options, given.names_of(names, options.model), given.room)[0]


def plot(report: MachineList, model: File | Model | None = None, initial: MachineList | None = None, run: bool = False,
         names: File | Names | None = None, title: str | None = None) -> str:
    """Draws a run, or the machines before and after, as a picture: the text of an SVG.

    A report alone draws the run, and so it does with its model and its start if `run` asks for that; else a report or a list
    with both draws the machines. Raises Problem as `check` does, and with status 9 if the report isn't one of these files.
    """
    if (model is None) != (initial is None):
        raise WrongValue("model and initial go together")
    if model is None and (flag("run", run) or names is not None):
        raise WrongValue(f"{'run' if run else 'names'} wants model and initial")
    with Given() as given:
        options = PlotOptions(given.list("report", report), None if model is None else given.model(model),
                              None if initial is None else given.list("initial", initial), (), flag("run", run),
                              given.names(names), text_if("title", title) or given.title_of(report))
        return picture_of(options, given.tidy)


def improve(model: File | Model, initial: MachineList, out: File, seconds: float = 60.0, tries: int | None = None,
            workers: int | None = None, seed: int = 1, closed: Closed | None = None, log: File | None = None,
            program: File | None = None, anneal: File | None = None) -> Improved:
    """Looks for the best list in so many `seconds`, or `tries`, and keeps it in the file `out`, from which it goes on if that is
    there already.

    `log` names a file that gets a JSON object for each piece; `plot` draws it. Raises Problem as `check` does, and with status 7
    if `out` can't be written or another call writes it. Stopped by KeyboardInterrupt, `out` has the best list so far.
    """
    with Given() as given:
        options = ImproveOptions(
            given.model(model), given.list("initial", initial), file_of("out", out), positive("seconds", seconds),
            whole_if("tries", tries, 1, MOST_TRIES), whole_if("workers", workers, 1, MOST_LOTS), whole("seed", seed, 0, LARGEST_SEED),
            given.closed(closed), log=file_if("log", log), program=file_if("program", program), anneal=file_if("anneal", anneal))
        return improved(options, given.room)


def race(instances: Iterable[File], seeds: Iterable[SupportsIndex] = (1,), slacks: Iterable[SupportsIndex] = (),
         proposals: Iterable[SupportsIndex] = (), seconds: Iterable[float] = (), solvers: Mapping[str, str] | None = None,
         workers: int = 1, jobs: int = 1, folder: File | None = None, program: File | None = None) -> list[Row]:
    """Runs solvers on instances, with the same seeds and budgets, and judges every list by `reassign check`.

    `instances` are names or patterns of model files or folders, as tools/race takes them; `proposals` and `seconds` are lists of
    budgets, of which one has to be given. `solvers` are other programs: their commands, with {model}, {initial}, {new},
    {seconds} and {seed}, by their names; our own `anneal` needs none. So many `jobs` run side by side. `folder` keeps the runs, and a call with the same
    words goes on there. Returns a Row for each run. Raises Problem with status 2 if the words are no race, 3 if a file can't be
    read, 6 if a start breaks a rule, 9 if `folder` has something else.
    """
    if bool(proposals) == bool(seconds):
        raise Problem("a race wants either proposals or seconds", 2)
    names = [file_of(f"instances[{at}]", one) for at, one in enumerate(items_of("instances", instances, "a list of names"))]
    words = ([whole("seeds", one, 0, LARGEST_SEED) for one in items_of("seeds", seeds, "a list of seeds")],
             [str(whole("slacks", one, 0, LARGEST_SEED)) for one in items_of("slacks", slacks, "a list of slacks")],
             [whole("proposals", one, 1, MOST_PROPOSALS) for one in items_of("proposals", proposals, "a list of budgets")],
             [positive("seconds", one) for one in items_of("seconds", seconds, "a list of budgets")],
             whole("workers", workers, 1, MOST_LOTS))
    others = [solver_of(f"{name}: {command}" if command else name) for name, command in (solvers or {}).items()]
    plan = made_plan(instances_of(names), others, *words)
    rows, is_stopped = raced(plan, program_of(program), file_if("folder", folder), whole("jobs", jobs, 1, 1000))
    if is_stopped:
        raise KeyboardInterrupt
    return list(rows)
