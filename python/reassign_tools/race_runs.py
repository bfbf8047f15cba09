"""The runs of a race: each leaves a list, which nobody has judged yet, and what it says of itself."""
import json
import math
import os
import platform
import shlex
import shutil
import signal
import subprocess
import tempfile
import threading
import time
from collections.abc import Callable, Iterator, Sequence
from dataclasses import asdict, dataclass, field
from statistics import median
from typing import Any

from . import __version__
from .children import begin, forget, signal_group
from .files import PIECE, list_text, read_whole, write_whole
from .problems import Problem
from .program import Program, slack_words
from .race_plan import ANNEAL, OWN, Instance, Job, Plan, Solver, digest
from .running import command_of, stopped_status

CURVE_POINTS = 150
CRASH, TIME_OUT = "crash", "time-out"  # how a run ends that doesn't end by itself with status 0
PATIENCE = 5.0  # seconds that a program has to end well
MOST_OUTCOME = 1 << 24  # bytes that a run says of itself
SHORTEST = 0.001  # seconds that another solver gets at least
Curve = list[tuple[float, int]]  # seconds, and the cost from there on
Take = Callable[[bytes], None]


@dataclass
class Outcome:
    """What a run says of itself. Seconds are by the clock; `processor` is processor time, with that of `reading`. `end` is a
    word for how it ended if it didn't end by itself, with status 0."""
    version: str = ""
    host: str = ""
    given: float | None = None
    seconds: float = 0.0
    processor: float = 0.0
    reading: float | None = None
    proposals: int | None = None
    fault: str = ""
    end: str = ""
    curve: Curve = field(default_factory=list)

    def solving(self) -> float:
        """The processor time without that of reading the files."""
        return max(self.processor - (self.reading or 0.0), SHORTEST)


# Programs that are timed


class Running:
    """The programs that run just now, each in a process group of its own, which can be ended together."""

    def __init__(self) -> None:
        self.lock, self.is_over = threading.Lock(), False
        self.groups: set[int] = set()

    def start(self, words: list[str], **how: Any) -> "subprocess.Popen[bytes]":
        with self.lock:
            if self.is_over:
                raise Problem("stopped", stopped_status())
            run: subprocess.Popen[bytes] = begin(words, stdout=subprocess.PIPE, **how)
            self.groups.add(run.pid)
        return run

    def end_group(self, group: int) -> None:
        """Ends a program well, or else at once, and what it began."""
        signal_group(group, signal.SIGTERM)
        last = time.monotonic() + PATIENCE
        while group in self.groups and time.monotonic() < last:
            time.sleep(0.02)
        signal_group(group, signal.SIGKILL)

    def forget(self, run: "subprocess.Popen[bytes]") -> None:
        """The program ended; what it left running ends too."""
        signal_group(run.pid, signal.SIGKILL)
        forget(run)
        with self.lock:
            self.groups.discard(run.pid)

    def end_all(self) -> None:
        with self.lock:
            self.is_over = True
            groups = list(self.groups)
        for group in groups:
            signal_group(group, signal.SIGTERM)
        for group in groups:
            self.end_group(group)


@dataclass
class Timed:
    """How a program ended: its status, which is None if it was ended after its limit, its last error line, and its times."""
    status: int | None
    error: str
    seconds: float
    processor: float


def timed(running: Running, words: Sequence[object], take: Take | None = None, limit: float | None = None) -> Timed:
    """Runs a program to its end, or for so many seconds as `limit`. Each line that it prints goes to `take`. What it left running
    ends with it."""
    with tempfile.TemporaryFile() as errors:
        began, ended = time.monotonic(), Timed(None, "", 0.0, 0.0)
        try:
            run = running.start(list(map(str, words)), stderr=errors)
        except OSError as fault:
            return Timed(127, f"{words[0]}: {fault.strerror}", 0.0, 0.0)
        printed = run.stdout
        assert printed
        waiting = threading.Thread(target=wait_for, args=(running, run, limit, ended), daemon=True)
        waiting.start()
        while line := printed.readline(PIECE):
            if take:
                take(line)
        waiting.join()
        ended.seconds = time.monotonic() - began
        printed.close()
        errors.seek(max(0, errors.seek(0, os.SEEK_END) - 4096))
        lines = errors.read().decode(errors="replace").strip().splitlines()
        ended.error = lines[-1] if lines else ""
    return ended


def wait_for(running: Running, run: "subprocess.Popen[bytes]", limit: float | None, ended: Timed) -> None:
    """Waits for the end of a program, which comes after its limit at the latest."""
    is_late = threading.Event()

    def end_late() -> None:
        is_late.set()
        running.end_group(run.pid)
    alarm = threading.Timer(limit, end_late) if limit else None
    if alarm:
        alarm.start()
    _, status, usage = os.wait4(run.pid, 0)
    if alarm:
        alarm.cancel()
    run.returncode = os.waitstatus_to_exitcode(status)
    running.forget(run)
    ended.status = None if is_late.is_set() else run.returncode
    ended.processor = usage.ru_utime + usage.ru_stime


def limit_of(seconds: float) -> float:
    """After how many seconds a run of another program is ended that should take so many."""
    return 2 * seconds + 60


# The program itself


class Head:
    """Takes a report line by line: the lines before its journal, and where its cost fell."""

    def __init__(self) -> None:
        self.lines: list[bytes] = []
        self.entries, self.least = 0, math.inf
        self.falls: list[tuple[int, int]] = []

    def take(self, line: bytes) -> None:
        if len(self.lines) < 10:
            self.lines.append(line)
            return
        self.entries += 1
        if b" done " in line:
            cost = int(line[line.rindex(b" "):][:40])
            if cost < self.least:
                self.least = cost
                self.falls.append((self.entries, cost))

    def assignment(self) -> list[int] | None:
        words = self.lines[8].split() if len(self.lines) == 10 else []
        return list(map(int, words[1:])) if words[:1] == [b"assignment"] else None


def thinned(points: Curve) -> Curve:
    """Some of the points of a curve: the last of each of so many steps, which grow by equal factors."""
    if len(points) <= CURVE_POINTS:
        return points
    last = points[-1][0]
    first = max(points[0][0], last / 10_000)
    width = math.log(last / first) / CURVE_POINTS or 1.0
    by_step = {int(math.log(max(at, first) / first) / width): (at, cost) for at, cost in points}
    return list(by_step.values())


def run_solve(running: Running, program: str, instance: Instance, job: Job, proposals: int, workers: int, new: str) -> Outcome:
    """One run of `solve`, behind the same command with no proposal, which tells how long reading takes."""
    first = (job.seed - 1) * workers + 1
    shares = [proposals // workers + (worker < proposals % workers) for worker in range(workers)]
    words = [program, "solve", instance.model, instance.initial, *slack_words(int(job.slack))]

    def lots(budgets: Sequence[int]) -> list[str]:
        return [f"{(first + worker) % 2**64}:{budget}" for worker, budget in enumerate(budgets)]
    idle = timed(running, words + lots([0] * workers))
    head = Head()
    run = timed(running, words + lots(shares), head.take)
    outcome = Outcome(seconds=run.seconds, processor=run.processor, reading=idle.processor, proposals=head.entries)
    found = head.assignment()
    if run.status or found is None:
        outcome.fault, outcome.end = fault_of(run) or "no report", CRASH
        return outcome
    write_whole(new, [list_text(found)])
    each = outcome.solving() / max(head.entries, 1)
    outcome.curve = thinned([(each * place, cost) for place, cost in head.falls])
    return outcome


def run_improve(running: Running, program: str, instance: Instance, job: Job, workers: int, new: str, seconds: float) -> Outcome:
    """A run of `improve`, for a number of seconds. Its proposals are tries."""
    log, anneal = f"{new}.log", Program(None, ANNEAL).binary()
    run = timed(running, [*command_of("improve"), instance.model, instance.initial, "--out", new, "--program", program, "--anneal",
                          anneal, "--workers", workers, "--seed", job.seed, "--log", log, "--seconds", f"{seconds:.6f}"])
    outcome = Outcome(given=seconds, seconds=run.seconds, processor=run.processor, fault=fault_of(run), end=end_of(run))
    outcome.version = f"{__version__} {digest(anneal)[:12]}"
    try:
        with open(log, encoding="utf-8") as file:
            pieces = [json.loads(line) for line in file]
        outcome.proposals = sum(one["tries"] for one in pieces)
        outcome.curve = thinned([(one["seconds"], one["cost"]) for one in pieces])
    except (OSError, ValueError, KeyError, TypeError):
        outcome.proposals = None
    return outcome


# Another program


class Said:
    """Takes what another program prints: `proposals N`, and its curve as lines `at SECONDS COST`."""

    def __init__(self) -> None:
        self.proposals: int | None = None
        self.curve: Curve = []

    def take(self, line: bytes) -> None:
        words = line.split(b" ") if len(line) < 200 else []
        try:
            if words[:1] == [b"proposals"] and len(words) == 2:
                self.proposals = int(words[1])
            elif words[:1] == [b"at"] and len(words) == 3:
                at, cost = float(words[1]), int(words[2])
                if math.isfinite(at) and at >= 0:
                    self.curve.append((at, cost))
        except ValueError:
            pass


def run_other(running: Running, solver: Solver, instance: Instance, job: Job, seconds: float, new: str) -> Outcome:
    """A run of another program, for so many seconds."""
    values = {"model": instance.model, "initial": instance.initial, "new": new, "seconds": f"{seconds:.6g}", "seed": job.seed}
    said = Said()
    run = timed(running, solver.words(values), said.take, limit_of(seconds))
    return Outcome(given=seconds, seconds=run.seconds, processor=run.processor, proposals=said.proposals, fault=fault_of(run),
                   end=end_of(run), curve=thinned(said.curve))


def end_of(run: Timed) -> str:
    return TIME_OUT if run.status is None else CRASH if run.status else ""


def fault_of(run: Timed) -> str:
    if run.status is None:
        return f"ended after {run.seconds:.0f} s"
    if not run.status:
        return ""
    if run.status < 0:
        return f"ended by signal {-run.status}"
    return f"status {run.status}" + (f": {run.error}" if run.error else "")


def version_of(words: Sequence[str]) -> str:
    """What tells which program ran: the first digits of the SHA-256 of the file that a command's first word names."""
    name = shutil.which(words[0])
    return digest(name)[:12] if name else ""


# The jobs of a race


@dataclass
class Place:
    """Where the runs of a plan leave what comes of them, and the program that they call."""
    folder: str
    program: str
    running: Running

    def list_name(self, job: Job) -> str:
        return os.path.join(self.folder, f"{job.number}.list")

    def outcome_name(self, job: Job) -> str:
        return os.path.join(self.folder, f"{job.number}.json")

    def has(self, job: Job) -> bool:
        return os.path.exists(self.outcome_name(job))


def units_of(plan: Plan) -> list[list[Job]]:
    """The jobs in groups that are run one after another. Another program that gets as long as this one took comes after all
    runs of this one on the same instance and with the same proposals; any other job is a group of its own."""
    timed_names = {name for name, solver in plan.solvers.items() if "{seconds}" in solver.command}
    units: dict[object, list[Job]] = {}
    for job in plan.jobs:
        is_grouped = job.proposals and timed_names and (job.solver == OWN or job.solver in timed_names)
        units.setdefault((job.instance, job.proposals) if is_grouped else job.number, []).append(job)
    return [sorted(unit, key=lambda job: job.solver != OWN) for unit in units.values()]


def run_unit(plan: Plan, unit: Sequence[Job], place: Place) -> Iterator[Job]:
    """Makes those runs of a unit that aren't there yet, and yields each job when its outcome and its list are there."""
    solving: list[float] = []
    for job in unit:
        if not place.has(job):
            outcome = run_job(plan, job, place, median(solving) if solving else None)
            if place.running.is_over:  # a run that was stopped is none
                raise Problem("stopped", stopped_status())
            write_whole(place.outcome_name(job), [json.dumps(asdict(outcome)).encode() + b"\n"])
        if job.solver == OWN:
            solving.append(read_outcome(place.outcome_name(job)).solving())
        yield job


def run_job(plan: Plan, job: Job, place: Place, as_long: float | None) -> Outcome:
    instance, new = plan.instances[job.instance], place.list_name(job)
    for name in (new, f"{new}.log"):
        if os.path.exists(name):  # of a run that was stopped
            os.unlink(name)
    if job.solver == ANNEAL:
        seconds = job.seconds or as_long or SHORTEST
        outcome = run_improve(place.running, place.program, instance, job, plan.workers, new, seconds)
    elif job.solver != OWN:
        solver = plan.solvers[job.solver]
        seconds = job.seconds or as_long or SHORTEST
        outcome = run_other(place.running, solver, instance, job, seconds, new)
        outcome.version = version_of(shlex.split(solver.command))
    else:
        outcome = run_solve(place.running, place.program, instance, job, job.proposals or 0, plan.workers, new)
        outcome.version = f"{__version__} {digest(place.program)[:12]}"
    outcome.host = platform.node()
    return outcome


def read_outcome(name: str) -> Outcome:
    """What a run says of itself, of which nothing is believed but its form."""
    try:
        outcome = Outcome(**json.loads(read_whole(name, MOST_OUTCOME, 9)))
        numbers = [outcome.seconds, outcome.processor, *(number for point in outcome.curve for number in point)]
        numbers += [number for number in (outcome.given, outcome.reading, outcome.proposals) if number is not None]
        texts = (outcome.version, outcome.host, outcome.fault, outcome.end)
        if all(isinstance(text, str) for text in texts) and all(0 <= number < math.inf for number in numbers):
            outcome.curve = [(at, cost) for at, cost in outcome.curve]
            return outcome
    except (ValueError, TypeError, RecursionError):
        pass
    raise Problem(f"{name} isn't what a run of a race leaves", 9)
