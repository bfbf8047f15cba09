"""The rows of a race: what `reassign check` says of each run's list, as CSV, JSON and tables."""
import csv
import io
import json
import os
import re
from collections import Counter
from collections.abc import Callable, Iterable, Mapping, Sequence
from dataclasses import asdict, dataclass, fields
from statistics import median
from typing import Any

from .files import read_whole
from .problems import Problem
from .program import Program
from .race_plan import OWN, Instance, Job, Plan
from .race_runs import CRASH, TIME_OUT, Curve, Place, read_outcome
from .texts import percent

# What came of a run. One without a feasible list crashed, was ended after its time, left no list, or one that breaks a rule.
OUTCOMES = ("feasible", "infeasible", "no list", CRASH, TIME_OUT)
LATE_SHARE, LATE_SECONDS = 0.1, 1.0  # by how much a run may be longer than its seconds
MOST_KNOWN = 1 << 24  # bytes of a file of best-known costs


@dataclass
class Row:
    """One run. Its costs are those of `check`; its times and proposals are what the run says of itself. `budget_proposals` or
    `budget_seconds` is what it was given; `processor` is processor time, of which `reading` was before the first proposal.
    `outcome` is one of OUTCOMES. `known` is the least cost that is known of the instance, if somebody told."""
    instance: str
    solver: str
    version: str
    seed: int
    slack: str
    budget_proposals: int | None
    budget_seconds: float | None
    seconds: float
    processor: float
    reading: float | None
    proposals: int | None
    start: int
    cost: int | None
    bound: int
    left: float | None
    feasible: bool
    outcome: str
    late: bool
    fault: str
    host: str
    curve: Curve
    known: int | None = None

    def budget(self) -> str:
        return f"{self.budget_proposals:,}" if self.budget_proposals else f"{self.budget_seconds:g} s"

    def time(self) -> float:
        """How long it took: by the clock if that was its budget; else in processor time without reading, which of another
        program nobody knows, but that it was to take so long."""
        if self.budget_proposals is None:
            return self.seconds
        return max(self.processor - self.reading, 0) if self.reading is not None else self.budget_seconds or self.processor

    def told(self) -> str:
        if self.cost is None or self.left is None:
            return f"{self.outcome}: {self.fault}" if self.fault != self.outcome else self.fault
        late = "" if not self.late else ", late"
        return f"cost {self.cost:,}, {100 * self.left:.1f} % of the way left, {self.seconds:.1f} s{late}"


COLUMNS = [one.name for one in fields(Row) if one.name not in ("curve", "known")]
Group = list[Row]  # the runs of one instance, budget, solver and slack


@dataclass
class Facts:
    """What the program says of an instance: the start's cost, and the bound."""
    start: int
    bound: int

    @staticmethod
    def of(program: Program, instance: Instance) -> "Facts":
        start = program.numbers("check", instance.model, instance.initial, instance.initial)["cost"]
        return Facts(start, program.numbers("bound", instance.model, instance.initial)["bound"])

    def left(self, cost: int) -> float:
        """The share of the way from the start to the bound that is left."""
        return (cost - self.bound) / (self.start - self.bound) if self.start > self.bound else 0.0


class Judge:
    """Judges what came of the jobs of a plan. Another program's list is believed no more than a file from anywhere."""

    def __init__(self, program: Program, plan: Plan, known: Mapping[str, int] | None = None) -> None:
        self.program, self.plan, self.known = program, plan, known or {}
        self.facts = {name: Facts.of(program, instance) for name, instance in plan.instances.items()}

    def row(self, job: Job, place: Place) -> Row:
        """The row of a job whose outcome is there."""
        facts, outcome = self.facts[job.instance], read_outcome(place.outcome_name(job))
        cost, kind, fault = self.judged(job, place.list_name(job))
        late = job.seconds is not None and outcome.seconds > (1 + LATE_SHARE) * job.seconds + LATE_SECONDS
        curve = [(0.0, facts.start), *outcome.curve] if outcome.curve else []
        if curve and cost is not None and curve[-1][1] != cost:
            curve.append((max(curve[-1][0], outcome.solving()), cost))
        return Row(job.instance, job.solver, outcome.version, job.seed, job.slack, job.proposals, job.seconds or outcome.given,
                   outcome.seconds, outcome.processor, outcome.reading, outcome.proposals, facts.start, cost, facts.bound,
                   None if cost is None else facts.left(cost), cost is not None,
                   "feasible" if cost is not None else outcome.end or kind, late,
                   "; ".join(filter(None, (outcome.fault, fault))), outcome.host, curve, self.known.get(job.instance))

    def judged(self, job: Job, name: str) -> tuple[int | None, str, str]:
        """The cost of a list, or None; and why there is none, in one of the words of OUTCOMES and in the program's."""
        if not os.path.isfile(name):
            return None, "no list", "no list"
        instance = self.plan.instances[job.instance]
        try:
            return self.program.numbers("check", instance.model, instance.initial, name)["cost"], "", ""
        except Problem as problem:
            if problem.status not in (3, 5, 6):
                raise
            return None, "infeasible" if problem.status == 6 else "no list", problem.line.replace(f" {name}:", "")


# Files


def csv_text(rows: Sequence[Row]) -> list[bytes]:
    """A line for each run. The best-known costs are a column if there are any."""
    text = io.StringIO()
    table = csv.writer(text, lineterminator="\n")
    columns = COLUMNS + ["known"] * has_known(rows)
    table.writerow(columns)
    for row in rows:
        values = [getattr(row, name) for name in columns]
        table.writerow([f"{value:.6g}" if isinstance(value, float) else "" if value is None else value for value in values])
    return [text.getvalue().encode()]


def json_text(rows: Sequence[Row]) -> list[bytes]:
    left_out = set() if has_known(rows) else {"known"}
    objects = [{name: value for name, value in asdict(row).items() if name not in left_out} for row in rows]
    return [json.dumps(objects, indent=1).encode() + b"\n"]


def read_known(name: str) -> dict[str, int]:
    """The best-known costs of a file, by the names of their instances. Raises Problem with status 3 if it can't be read, and 9 if
    a line isn't a name and a cost."""
    known: dict[str, int] = {}
    for at, line in enumerate(read_whole(name, MOST_KNOWN).decode(errors="replace").splitlines(), 1):
        text = line.partition("#")[0].strip()
        found = re.fullmatch(r"(\S.*?)[\s,;]+([0-9]{1,40})", text)
        if not found and text:
            raise Problem(f"{name}: line {at}: wanted are an instance and the least cost that is known of it", 9)
        if found and found[1] in known:
            raise Problem(f"{name}: line {at}: {found[1]} has a cost before", 9)
        if found:
            known[found[1]] = int(found[2])
    return known


def has_known(rows: Iterable[Row]) -> bool:
    return any(row.known is not None for row in rows)


# Tables


@dataclass(frozen=True)
class Table:
    """A table of texts: its heads, and its lines."""
    heads: list[str]
    lines: list[list[str]]

    def markdown(self) -> str:
        def row(cells: Iterable[str]) -> str:
            return f"| {' | '.join(cells)} |\n"
        return row(self.heads) + "|" + "---|" * len(self.heads) + "\n" + "".join(map(row, self.lines))

    def latex(self) -> str:
        """The table as LaTeX, which needs no package. Columns of numbers stand to the right."""
        def row(cells: Iterable[str]) -> str:
            return " & ".join(map(latex_word, cells)) + r" \\" + "\n"
        columns = zip(*self.lines) if self.lines else [() for _ in self.heads]
        sides = "".join("r" if all(re.match(r"[-0-9]|$", cell) for cell in column) else "l" for column in columns)
        body = row(self.heads) + "\\hline\n" + "".join(map(row, self.lines))
        return f"\\begin{{tabular}}{{{sides}}}\n\\hline\n{body}\\hline\n\\end{{tabular}}\n"


LATEX = {"\\": r"\textbackslash{}", "~": r"\textasciitilde{}", "^": r"\textasciicircum{}", "<": r"\textless{}",
         ">": r"\textgreater{}", **{letter: f"\\{letter}" for letter in "&%$#_{}"}}


def latex_word(word: str) -> str:
    """A text as LaTeX prints it as it stands."""
    return "".join(LATEX.get(letter, letter if letter.isprintable() else " ") for letter in word)


def key_of(row: Row) -> tuple[object, ...]:
    """Runs of one key are compared by their seeds alone."""
    return row.instance, row.budget_proposals, row.budget_seconds if row.budget_proposals is None else None, row.solver, row.slack


def groups_of(rows: Iterable[Row]) -> dict[tuple[object, ...], Group]:
    groups: dict[tuple[object, ...], Group] = {}
    for row in rows:
        groups.setdefault(key_of(row), []).append(row)
    return groups


def instance_table(rows: Sequence[Row]) -> Table:
    """A line for each instance: what its start costs, its bound, and the best-known cost, if there are any."""
    is_known = has_known(rows)
    lines = {row.instance: [row.instance, f"{row.start:,}", f"{row.bound:,}", *[told(row.known)] * is_known] for row in rows}
    return Table(["instance", "start", "bound", *["best known"] * is_known], list(lines.values()))


def told(number: int | None) -> str:
    return "-" if number is None else f"{number:,}"


def has_slacks(rows: Iterable[Row]) -> bool:
    """Whether the program ran with several slacks."""
    return len({row.slack for row in rows if row.solver == OWN}) > 1


def budget_head(rows: Iterable[Row]) -> str:
    return "budget" if any(row.budget_proposals is None for row in rows) else "proposals"


def run_table(rows: Sequence[Row]) -> Table:
    """A line for each instance, budget, solver and slack, with the least, the median and the most cost of its seeds. The
    spread is the most less the least, as a share of the way from start to bound; left is the share at the median; and above
    best is how much more than the best-known cost the median is, as a share of that."""
    slacks, knowns = has_slacks(rows), has_known(rows)
    heads = ["instance", budget_head(rows), "solver", *["slack"] * slacks, "runs", "least", "median", "most", "spread", "left",
             *["above best"] * knowns, "time"]
    spoilt = [word for word in (*OUTCOMES[1:], "late") if any(counts_of(group)[word] for group in groups_of(rows).values())]
    lines = []
    for group in sorted(groups_of(rows).values(), key=place_of(rows)):
        first, counts = group[0], counts_of(group)
        costs = sorted(row.cost for row in group if row.cost is not None)
        way = max(first.start - first.bound, 1)
        texts, above = ["-"] * 5, "-"
        if costs:
            middle = round(median(costs))
            texts = [f"{costs[0]:,}", f"{middle:,}", f"{costs[-1]:,}", percent((costs[-1] - costs[0]) / way),
                     percent((middle - first.bound) / way)]
            above = percent((middle - first.known) / first.known) if first.known else "-"
        used = median(row.time() for row in group)
        lines.append([first.instance, first.budget(), first.solver, *[first.slack] * slacks, str(len(group)), *texts,
                      *[above] * knowns, f"{used:.2f} s", *(str(counts[word]) for word in spoilt)])
    return Table(heads + spoilt, lines)


def place_of(rows: Sequence[Row]) -> Callable[[Group], Any]:
    """Where a group stands in a table: by instance and budget, as they came, and then by solver and slack."""
    def order(values: Iterable[object]) -> dict[object, int]:
        return {value: at for at, value in enumerate(dict.fromkeys(values))}
    instances, solvers = order(row.instance for row in rows), order((row.solver, row.slack) for row in rows)
    return lambda group: (instances[group[0].instance], group[0].budget_proposals or 0,
                          group[0].budget_seconds if not group[0].budget_proposals else 0,
                          solvers[group[0].solver, group[0].slack])


def counts_of(group: Group) -> dict[str, int]:
    return {**dict.fromkeys(OUTCOMES, 0), **Counter(row.outcome for row in group), "late": sum(row.late for row in group)}
