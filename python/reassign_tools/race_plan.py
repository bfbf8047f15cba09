"""What a race runs: its instances, its solvers, and a job for each run."""
import glob
import hashlib
import json
import os
import re
import shlex
from collections.abc import Mapping, Sequence
from dataclasses import asdict, dataclass

from .files import read_whole, write_whole
from .problems import Problem
from .words import LARGEST_SEED, MOST_PROPOSALS

OWN, ANNEAL = "reassign", "anneal"  # the names of our own solvers: runs of `solve`, and of tools/improve
FIELDS = ("model", "initial", "new", "seconds", "seed")
NEEDED_FIELDS = ("model", "initial", "new")


@dataclass(frozen=True)
class Instance:
    """A model and its true start."""
    name: str
    model: str
    initial: str


@dataclass(frozen=True)
class Solver:
    """Another program. In the words of its command {model}, {initial}, {new}, {seconds} and {seed} stand for those of a run."""
    name: str
    command: str

    def words(self, values: Mapping[str, object]) -> list[str]:
        """The words of the command for one run."""
        return [re.sub(r"\{(\w+)\}", lambda field: str(values[str(field[1])]), word) for word in shlex.split(self.command)]


@dataclass(frozen=True)
class Job:
    """One run. `proposals` or `seconds` is its budget; slack is a number for a run of `solve`, and else ""."""
    number: int
    instance: str
    solver: str
    seed: int
    slack: str
    proposals: int | None
    seconds: float | None

    def budget(self) -> str:
        return f"{self.proposals:,} proposals" if self.proposals else f"{self.seconds:g} s"

    def told(self) -> str:
        slack = f", slack {self.slack}" if self.slack else ""
        return f"{self.instance}, {self.solver}{slack}, {self.budget()}, seed {self.seed}"


@dataclass
class Plan:
    """All that a race runs, in an order in which each solver meets the same load of the machine."""
    instances: dict[str, Instance]
    solvers: dict[str, Solver]
    workers: int
    jobs: list[Job]

    def text(self) -> bytes:
        """The plan as JSON, with the SHA-256 of each file."""
        instances = [asdict(one) | {"model_sha256": digest(one.model), "initial_sha256": digest(one.initial)}
                     for one in self.instances.values()]
        whole = {"instances": instances, "solvers": [asdict(one) for one in self.solvers.values()], "workers": self.workers,
                 "jobs": [asdict(one) for one in self.jobs]}
        return json.dumps(whole, indent=1).encode() + b"\n"

    def write(self, name: str) -> None:
        write_whole(name, [self.text()])

    @staticmethod
    def read(name: str) -> "tuple[Plan, dict[str, tuple[str, str]]]":
        """The plan of a file, and the SHA-256 of its models and starts by the names of their instances."""
        try:
            whole = json.loads(read_whole(name))
            digests = {one["name"]: (one.pop("model_sha256"), one.pop("initial_sha256")) for one in whole["instances"]}
            instances = {one["name"]: Instance(**one) for one in whole["instances"]}
            solvers = {one["name"]: Solver(**one) for one in whole["solvers"]}
            return Plan(instances, solvers, whole["workers"], [Job(**one) for one in whole["jobs"]]), digests
        except (ValueError, KeyError, TypeError, AttributeError, RecursionError):
            raise Problem(f"{name} is no plan of a race", 9) from None


def digest(name: str) -> str:
    """The SHA-256 of a file."""
    try:
        with open(name, "rb") as file:
            return hashlib.file_digest(file, "sha256").hexdigest()
    except OSError as fault:
        raise Problem(f"{name}: {fault.strerror}") from None


def planned(instances: Sequence[Instance], solvers: Sequence[Solver], seeds: Sequence[int], slacks: Sequence[str],
            budgets: Sequence[tuple[int | None, float | None]], workers: int) -> Plan:
    """The plan of all runs. `budgets` are pairs of proposals and seconds, one of which is None."""
    jobs: list[Job] = []
    for seed in seeds:
        for instance in instances:
            for proposals, seconds in budgets:
                own = [(OWN, slack) for slack in slacks] if proposals else [(ANNEAL, "")]
                runs = dict.fromkeys(own + [(solver.name, "") for solver in solvers])
                jobs += [Job(len(jobs) + at, instance.name, solver, seed, slack, proposals, seconds)
                         for at, (solver, slack) in enumerate(runs)]
    return Plan({one.name: one for one in instances}, {one.name: one for one in solvers}, workers, jobs)


# What the words of a call name


def instances_of(patterns: Sequence[str]) -> list[Instance]:
    """The instances that patterns of file names match: model_X with assignment_X, and folders with `model` and `initial`.

    All names of which nothing can be made are told at once."""
    found: dict[str, Instance] = {}
    wrong = []
    for pattern in patterns:
        names = sorted(glob.glob(pattern)) if glob.has_magic(pattern) else [pattern]
        some = [(name, instance_at(name)) for name in names]
        if not any(instance for _, instance in some):
            wrong.append(f"{pattern}: {why_none(pattern, names)}")
        found |= {os.path.realpath(one.model): one for _, one in some if one}
    if wrong:
        raise Problem("; ".join(wrong))
    return with_own_names(list(found.values()))


def instance_at(name: str) -> Instance | None:
    """The instance of a folder or a model file, or None."""
    folder, file = os.path.split(name)
    if os.path.isdir(name):
        label, model, initial = os.path.basename(os.path.normpath(os.path.abspath(name))), "model", "initial"
        folder = name
    elif file == "model":
        label, model, initial = os.path.basename(os.path.abspath(folder or ".")), file, "initial"
    elif file.startswith("model_"):
        label, model, initial = os.path.splitext(file)[0][len("model_"):], file, "assignment_" + file[len("model_"):]
    else:
        return None
    model, initial = os.path.abspath(os.path.join(folder, model)), os.path.abspath(os.path.join(folder, initial))
    return Instance(label, model, initial) if os.path.isfile(model) and os.path.isfile(initial) else None


def why_none(pattern: str, names: Sequence[str]) -> str:
    if not names or (names == [pattern] and not os.path.exists(pattern)):
        return "there is no such file"
    return "no instance: that is a file model_X with assignment_X beside it, or a folder with `model` and `initial`"


def with_own_names(instances: Sequence[Instance]) -> list[Instance]:
    """The instances, those of which the names are the same named by their models' paths."""
    names = [one.name for one in instances]
    return [Instance(one.model, one.model, one.initial) if names.count(one.name) > 1 else one for one in instances]


def numbers_of(word: str, most: int) -> list[int]:
    """The numbers that a word like 1-3,7 names, in their order."""
    numbers: list[int] = []
    for part in word.split(","):
        ends = part.split("-")
        if not 1 <= len(ends) <= 2 or not all(re.fullmatch("[0-9]{1,20}", end) for end in ends):
            raise ValueError
        first, last = int(ends[0]), int(ends[-1])
        if not first <= last <= most or last - first >= 100_000:
            raise ValueError
        numbers += range(first, last + 1)
    return list(dict.fromkeys(numbers))


def seeds_of(word: str) -> list[int]:
    return numbers_of(word, LARGEST_SEED)


def slacks_of(word: str) -> list[str]:
    """Slacks, each as the program takes it."""
    return list(dict.fromkeys(str(numbers_of(part, LARGEST_SEED)[0]) for part in word.split(",")))


def proposals_of(word: str) -> list[int]:
    budgets = numbers_of(word, MOST_PROPOSALS)
    if not min(budgets):
        raise ValueError
    return budgets


def seconds_of(word: str) -> list[float]:
    """Seconds, which needn't be whole."""
    budgets = [float(part) for part in word.split(",") if re.fullmatch(r"[0-9]{1,9}(\.[0-9]{1,6})?", part)]
    if len(budgets) != word.count(",") + 1 or not min(budgets):
        raise ValueError
    return list(dict.fromkeys(budgets))


def solver_of(word: str) -> Solver:
    """A solver by a word 'NAME: COMMAND'; or `anneal`, which runs as long as `solve` does."""
    if word == ANNEAL:
        return Solver(ANNEAL, "improve {model} {initial} --out {new} --seconds {seconds} --seed {seed}")
    name, colon, command = word.partition(":")
    name, command = name.strip(), command.strip()
    if not colon or not re.fullmatch(r"[\w.+-]{1,40}", name) or name in (OWN, ANNEAL):
        raise Problem(f"--solver {word!r}: wanted is 'NAME: COMMAND', with a name of letters and digits other than {OWN} and "
                      f"{ANNEAL}", 2)
    try:
        words = shlex.split(command)
    except ValueError as fault:
        raise Problem(f"--solver {name}: {fault}", 2) from None
    fields = re.findall(r"\{(\w+)\}", command)
    unknown = [field for field in fields if field not in FIELDS]
    missing = [field for field in NEEDED_FIELDS if field not in fields]
    if unknown or missing or not words:
        what = f"there is no {{{unknown[0]}}}" if unknown else f"{{{missing[0]}}} is missing" if missing else "there is no command"
        raise Problem(f"--solver {name}: {what}; the fields are " + ", ".join(f"{{{field}}}" for field in FIELDS), 2)
    return Solver(name, command)
