"""Runs solvers on instances, with the same seeds and budgets, and judges every list that comes by `reassign check`.

An instance is a file model_X with assignment_X beside it (with any ending), or a folder with the files `model` and `initial`.
With --proposals `solve` runs once for each slack; with --seconds tools/improve runs, by the name `anneal`, and beside `solve` it does
with --solver anneal. Another program takes part by --solver 'NAME: COMMAND'. In the words of its command {model}, {initial} and {new}
stand for the files of a run, {new} is the list that it has to write, {seconds} is how long it may take, and {seed} is its seed. No
shell reads the command. With --proposals others get as many seconds as the runs of `solve` took of processor time, without reading:
the median of all seeds. A program may print `proposals N`, and its curve as lines `at SECONDS COST`.

    $ tools/race --instances 'data/model_*.txt' --seeds 1-10 --slack 0,30 --proposals 100000 --csv runs.csv
    $ tools/race --instances hall --seeds 1-5 --seconds 60 --solver 'mine: ./mine {model} {initial} {new} {seconds} {seed}'

Tables come on standard output: for each instance, budget, solver and slack the least, the median and the most cost, the
spread (the most less the least, as a share of the way from the start's cost to the bound), the share of the way that is left
at the median, the median of their times (by the clock with --seconds, else as above), and how many runs left a list that breaks
a rule ("infeasible"), left no list, crashed (ended by a signal, or with another status than 0), were ended after twice their
time and a minute more ("time-out"), or were late, which is a tenth of their seconds and one second more. --csv and --json have
a row for each run, and --latex has the tables for a text. --curves is a picture of what is left over seconds, by median and
quartiles, and --plot one of the costs. A picture is .svg, or .png or .pdf if rsvg-convert or cairosvg is there.

--known FILE has the best costs that are known: lines of an instance and a cost, and what stands behind # doesn't count. They
become columns and a line of --plot. --test compares each two solvers, with their slacks, by Wilcoxon's signed ranks over the same
seeds, on each instance, and by the share of the way that is left on all. A run without a feasible list is dearer than any with
one. Pairs that cost the same are left out; equal differences share the middle of their ranks. The rank sum is the lesser one, and
p is how often such a one comes by chance if neither solver is better, on either side: exact for up to 50 pairs, and by the normal
distribution for more. It isn't corrected for how many tests there are.

On several machines: --list FILE writes one command a line, and puts all that they need into FOLDER, which the hosts share or
which is copied to them. `parallel --sshloginfile HOSTS < FILE` or a Slurm array runs them; if a host has FOLDER elsewhere, its
environment's RACE says where. A command whose runs are there already does nothing. --collect FOLDER judges what came back,
here and by the files from which FOLDER was made; with --instances by those, so that a host that may write to FOLDER can't
change what its lists are judged by. With --list too it writes the commands of the runs that are missing. FOLDER also keeps the
runs of a call without --list: if it was stopped, the same call goes on."""
import argparse
import os
import queue
import shutil
import threading
from collections.abc import Callable, Iterator, Mapping, Sequence
from typing import TypeVar

from . import __version__
from .files import Room, read_whole, target, write_whole
from .pictures import form_of, write_picture
from .problems import Problem
from .program import Program
from .race_curves import costs, curves
from .race_plan import (ANNEAL, Instance, Job, Plan, Solver, digest, instances_of, planned, proposals_of, seconds_of, seeds_of,
                        slacks_of, solver_of)
from .race_ranks import rank_table
from .race_rows import Judge, Row, Table, csv_text, instance_table, json_text, read_known, run_table
from .race_runs import Place, Running, run_unit, units_of
from .running import PACKAGE, no_more_stops, run_tool, say, stopped_status
from .words import MOST_LOTS, Words, file_name, number

PLAN, RESULTS, TOOLS, PROGRAM, RUN = "plan.json", "results", "python", "program", "run"
Read = TypeVar("Read")
Done = tuple[Job | None, BaseException | None]


def parser() -> Words:
    words = Words("race", __doc__)
    words.add_program()
    words.add_argument("--instances", metavar="PATTERN", type=file_name, nargs="+", default=[],
                       help="models by names or patterns, or folders")
    words.add_argument("--seeds", metavar="SEEDS", type=listed(seeds_of), default=[1], help="such as 1-5,8 (1)")
    words.add_argument("--slack", metavar="SLACKS", type=listed(slacks_of),
                       help="of the runs of `solve`, such as 0,30 (0)")
    budgets = words.add_mutually_exclusive_group()
    budgets.add_argument("--proposals", metavar="N", type=listed(proposals_of),
                         help="the budget of each run; may be several: 1000,10000")
    budgets.add_argument("--seconds", metavar="S", type=listed(seconds_of),
                         help="the budget of each run, by the clock; may be several")
    words.add_argument("--workers", metavar="W", type=number(1, MOST_LOTS), default=1,
                       help="workers of each run of the program (1)")
    words.add_argument("--solver", metavar="WORDS", action="append", default=[], help="another program: 'NAME: COMMAND'; or anneal")
    words.add_argument("--jobs", metavar="J", type=number(1, 1000), default=1, help="runs side by side (1)")
    words.add_argument("--csv", metavar="FILE", type=file_name, help="a row for each run")
    words.add_argument("--json", metavar="FILE", type=file_name, help="the same, with the curves")
    words.add_argument("--latex", metavar="FILE", type=file_name, help="the tables as LaTeX")
    words.add_argument("--curves", metavar="FILE", type=file_name, help="a picture of what is left over seconds")
    words.add_argument("--plot", metavar="FILE", type=file_name, help="a picture of the costs over seconds")
    words.add_argument("--known", metavar="FILE", type=file_name, help="the best costs that are known")
    words.add_argument("--test", action="store_true", help="a rank test between each two solvers")
    words.add_argument("--folder", metavar="FOLDER", type=file_name, help="keep the plan and the runs there")
    words.add_argument("--list", metavar="FILE", type=file_name, help="write the commands of the runs, and run nothing here")
    words.add_argument("--collect", metavar="FOLDER", type=file_name, help="judge what came back, and run nothing")
    words.add_argument("--run", metavar="N", type=number(0, 10**9),
                       help="what a command of the list does: run number N of FOLDER's plan")
    return words


def listed(read: Callable[[str], Read]) -> Callable[[str], Read]:
    def word(text: str) -> Read:
        try:
            return read(text)
        except ValueError:
            raise argparse.ArgumentTypeError(f"{text!r} is no list of such numbers") from None
    return word


def plan_of(options: argparse.Namespace) -> Plan:
    """The plan that the words of a call ask for."""
    if not options.instances:
        raise Problem("--instances is missing; race --help shows how to call it", 2)
    if not options.proposals and not options.seconds:
        raise Problem("--proposals or --seconds is missing; race --help shows how to call it", 2)
    solvers = [solver_of(word) for word in options.solver]
    return made_plan(instances_of(options.instances), solvers, options.seeds, options.slack, options.proposals or [],
                     options.seconds or [], options.workers)


def made_plan(instances: Sequence[Instance], solvers: Sequence[Solver], seeds: Sequence[int], slacks: Sequence[str] | None,
              proposals: Sequence[int], seconds: Sequence[float], workers: int) -> Plan:
    """The plan of a race. Slacks are for runs of `solve`."""
    if len({solver.name for solver in solvers}) < len(solvers):
        raise Problem("two solvers have one name", 2)
    budgets: list[tuple[int | None, float | None]] = [*((one, None) for one in proposals), *((None, one) for one in seconds)]
    if slacks and not proposals:
        raise Problem("--slack is for --proposals", 2)
    return planned(instances, solvers, seeds, slacks or ["0"], budgets, workers)


# Here


class Race:
    """A plan that is run or judged here."""

    def __init__(self, plan: Plan, program: Program, folder: str, known: Mapping[str, int] | None = None) -> None:
        self.plan, self.program, self.running = plan, program, Running()
        self.place = Place(folder, program.binary(), self.running)
        self.judge = Judge(program, plan, known)

    def run_all(self, jobs: int) -> tuple[list[Row], bool]:
        """Makes the runs that aren't there yet, so many side by side. Answers the rows of those that are there in the end, and
        whether it was stopped."""
        waiting: queue.SimpleQueue[list[Job]] = queue.SimpleQueue()
        done: queue.SimpleQueue[Done] = queue.SimpleQueue()
        for unit in units_of(self.plan):
            waiting.put(unit)
        workers = [threading.Thread(target=self.work_through, args=(waiting, done), daemon=True) for _ in range(jobs)]
        rows: dict[int, Row] = {}
        is_stopped = False
        try:
            for worker in workers:
                worker.start()
            for _ in self.plan.jobs:
                job, fault = done.get()
                if fault or not job:
                    raise fault or AssertionError
                rows[job.number] = self.judge.row(job, self.place)
                say(f"{len(rows)} of {len(self.plan.jobs)}: {job.told()}: {rows[job.number].told()}")
        except KeyboardInterrupt:
            is_stopped = True
        finally:
            self.running.end_all()
        for worker in workers:
            worker.join()
        return [rows[number] for number in sorted(rows)], is_stopped

    def work_through(self, waiting: "queue.SimpleQueue[list[Job]]", done: "queue.SimpleQueue[Done]") -> None:
        while True:
            try:
                unit = waiting.get_nowait()
            except queue.Empty:
                return
            try:
                for job in run_unit(self.plan, unit, self.place):
                    done.put((job, None))
            except BaseException as fault:
                done.put((None, fault))
                return

    def rows(self) -> list[Row]:
        """The rows of all runs that are there."""
        return [self.judge.row(job, self.place) for job in self.plan.jobs if self.place.has(job)]


def raced(plan: Plan, program: Program, folder: str | None, jobs: int,
          known: Mapping[str, int] | None = None) -> tuple[list[Row], bool]:
    """Runs a plan here, so many runs side by side. Answers its rows, and whether it was stopped."""
    with Room() as room:
        return Race(plan, program, kept_folder(folder, plan) if folder else room(""), known).run_all(jobs)


def run_here(options: argparse.Namespace) -> tuple[list[Row], int]:
    """Runs a race here. Answers its rows, and the status."""
    plan, program = plan_of(options), Program(options.program)
    check_outputs(options, plan, program)
    rows, is_stopped = raced(plan, program, options.folder, options.jobs, known_of(options))
    if is_stopped:
        no_more_stops()
        again = "; the same call goes on" if options.folder else ""
        say(f"stopped after {len(rows)} of {len(plan.jobs)} runs{again}")
    return rows, stopped_status() if is_stopped else 0


def kept_folder(folder: str, plan: Plan) -> str:
    """The folder in which the runs of a plan are kept. One that has another plan is refused."""
    name = os.path.join(folder, PLAN)
    if os.path.exists(name):
        if read_whole(name) != plan.text():
            raise Problem(f"{folder} has another race; name another folder", 2)
    elif os.path.isdir(folder) and os.listdir(folder):
        raise Problem(f"{folder} has other files; name another folder", 2)
    results = os.path.join(folder, RESULTS)
    try:
        os.makedirs(results, exist_ok=True)
    except OSError as fault:
        raise Problem(f"write fault: {folder}: {fault.strerror}", 7) from None
    plan.write(name)
    return results


# Elsewhere


def write_list(options: argparse.Namespace) -> None:
    """Puts all that the hosts need into the folder, and writes the commands."""
    plan, program = plan_of(options), Program(options.program)
    check_outputs(options, plan, program)
    folder = os.path.realpath(options.folder or f"{options.list}.race")
    kept_folder(folder, plan)
    try:
        for at, instance in enumerate(plan.instances.values()):
            os.makedirs(os.path.join(folder, "instances", str(at)), exist_ok=True)
            for file, name in (("model", instance.model), ("initial", instance.initial)):
                shutil.copyfile(name, os.path.join(folder, "instances", str(at), file))
        programs = {PROGRAM: program} | ({ANNEAL: Program(None, ANNEAL)} if any(job.solver == ANNEAL for job in plan.jobs) else {})
        for name, one in programs.items():
            shutil.copyfile(one.binary(), os.path.join(folder, name))
            os.chmod(os.path.join(folder, name), 0o755)
        package = os.path.join(folder, TOOLS, os.path.basename(PACKAGE))
        shutil.copytree(PACKAGE, package, dirs_exist_ok=True, ignore=shutil.ignore_patterns("__pycache__"))
        write_whole(os.path.join(package, "VERSION"), [f"{__version__}\n".encode()])
        write_whole(os.path.join(folder, RUN), [RUN_TEXT.encode()])
        os.chmod(os.path.join(folder, RUN), 0o755)
    except OSError as fault:
        raise Problem(f"write fault: {folder}: {fault.strerror}", 7) from None
    write_commands(options.list, folder, plan)


RUN_TEXT = f"""#!/bin/sh
# Makes a run of the race in this folder: run NUMBER
here=$(cd "$(dirname "$0")" && pwd) && cd "$here" || exit
export ANNEAL="$here/{ANNEAL}"
exec python3 "$here/{TOOLS}/{os.path.basename(PACKAGE)}" race --folder "$here" --program "$here/{PROGRAM}" --run "$1"
"""


def write_commands(name: str, folder: str, plan: Plan) -> None:
    """Writes the commands of those units of which a run is missing."""
    place = Place(os.path.join(folder, RESULTS), "", Running())
    missing = [at for at, unit in enumerate(units_of(plan)) if not all(map(place.has, unit))]
    start = f'"${{RACE:-{quoted(folder)}}}/{RUN}"'
    write_whole(name, [f"{start} {at}\n".encode() for at in missing])
    say(f"{name} has {len(missing)} commands")


def quoted(folder: str) -> str:
    """A folder's name between double quotes of the shell."""
    if any(letter in folder for letter in '"$`\\}\n'):
        raise Problem(f"{folder}: the name of a folder for other hosts may have no quotes, dollars, backslashes, braces or line "
                      "ends", 2)
    return folder


def run_one(options: argparse.Namespace) -> None:
    """What a command of the list does, on any host."""
    if not options.folder:
        raise Problem("--run is for --folder; race --help shows how to call it", 2)
    plan, _ = Plan.read(os.path.join(options.folder, PLAN))
    units = units_of(plan)
    if options.run >= len(units):
        raise Problem(f"{options.folder} has no run {options.run}", 2)
    def at_hand(at: int, file: str) -> str:
        return os.path.join(options.folder, "instances", str(at), file)
    plan.instances = {name: Instance(name, at_hand(at, "model"), at_hand(at, "initial")) for at, name in enumerate(plan.instances)}
    running = Running()
    try:
        place = Place(os.path.join(options.folder, RESULTS), Program(options.program).binary(), running)
        for _ in run_unit(plan, units[options.run], place):
            pass
    finally:
        running.end_all()


def collected(options: argparse.Namespace) -> tuple[list[Row], int]:
    """The rows of the runs that came back."""
    plan, digests = Plan.read(os.path.join(options.collect, PLAN))
    if options.instances:
        named = {one.name: one for one in instances_of(options.instances)}
        unknown = [name for name in plan.instances if name not in named]
        if unknown:
            raise Problem(f"{options.collect} has runs on {', '.join(unknown)}, which --instances doesn't name", 2)
        plan.instances = {name: named[name] for name in plan.instances}
    else:
        for name, one in plan.instances.items():
            if (digest(one.model), digest(one.initial)) != digests[name]:
                raise Problem(f"{one.model} or {one.initial} is another file than when {options.collect} was made", 9)
    program = Program(options.program)
    check_outputs(options, plan, program)
    rows = Race(plan, program, os.path.join(options.collect, RESULTS), known_of(options)).rows()
    say(f"{len(rows)} of {len(plan.jobs)} runs are there")
    if options.list:
        write_commands(options.list, os.path.realpath(options.collect), plan)
    return rows, 0 if len(rows) == len(plan.jobs) else 11


# The call


def known_of(options: argparse.Namespace) -> dict[str, int]:
    """The best-known costs."""
    return read_known(options.known) if options.known else {}


def check_outputs(options: argparse.Namespace, plan: Plan, program: Program) -> None:
    """Refuses an output that would destroy an input, or another output, and what can't be read or drawn, before any run."""
    outputs = [name for name in (options.csv, options.json, options.latex, options.curves, options.plot, options.list) if name]
    inputs = [program.name, options.known, *(file for one in plan.instances.values() for file in (one.model, one.initial))]
    for at, name in enumerate(outputs):
        target(name, *inputs, *outputs[:at])
    for name in filter(None, (options.curves, options.plot)):
        form_of(name)
    known_of(options)


def tables_of(rows: Sequence[Row], has_test: bool) -> Iterator[Table]:
    yield instance_table(rows)
    yield run_table(rows)
    if has_test:
        yield rank_table(rows)


def work(options: argparse.Namespace) -> int:
    if options.run is not None:
        run_one(options)
        return 0
    if options.list and not options.collect:
        write_list(options)
        return 0
    rows, status = collected(options) if options.collect else run_here(options)
    if not rows:
        return status
    tables = list(tables_of(rows, options.test))
    for name, text in ((options.csv, csv_text), (options.json, json_text)):
        if name:
            write_whole(name, text(rows))
    if options.latex:
        write_whole(options.latex, ["\n".join(table.latex() for table in tables).encode()])
    for name, picture in ((options.curves, curves), (options.plot, costs)):
        if name:
            write_picture(name, picture(rows))
    print("\n".join(table.markdown() for table in tables), end="")
    return status


def main(words: list[str] | None = None) -> None:
    run_tool(parser(), work, words)
