"""The names of a model's machines, services, processes and resources, as `named pack` writes them."""
import hashlib
import json
import re
from collections.abc import Callable
from dataclasses import dataclass, field
from fractions import Fraction
from typing import Any, Self

from .files import MOST_JSON, InRoom, list_text, pieces_of, read_whole, write_whole
from .fleets.amounts import amount, amount_text
from .fleets.mistakes import Mistakes
from .models import Model
from .problems import Problem

LISTS = ("resources", "units", "machines", "neighbourhoods", "locations", "services", "processes")
BROKEN = re.compile(r"((?:infeasible|unrepaired): .*: )(capacity|transient|conflict|spread|dependency|closed)((?: [0-9]+)+)", re.S)
NO_LIST = re.compile(r"(bad assignment: .*: (?:no machine for|missing) process )([0-9]+)(.*)", re.S)


@dataclass
class Names:
    """Names in the order of a model's numbers; those of neighbourhoods and locations by their labels."""

    model_sha256: str
    resources: list[str]
    units: list[Fraction]  # what one of the model's numbers means, as fractions
    machines: list[str]
    neighbourhoods: list[str]
    locations: list[str]
    services: list[str]
    processes: list[str]
    tables: dict[str, str] = field(default_factory=dict, repr=False)  # the texts of the tables, by their files
    rules: list[str] = field(default_factory=list)  # the resources that stand for a rule, and for nothing that processes use

    @classmethod
    def read(cls, name: str, model: str) -> Self:
        """The names of a file, which have to belong to the model in the file `model`.

        Raises Problem with status 3 if a file can't be read, and 4 if it has no names or those of another model."""
        try:
            found = json.loads(read_whole(name, MOST_JSON, 4, lambda piece: piece.lstrip()[:1] == b"{"))
        except (ValueError, RecursionError):
            raise Problem(f"{name} is no file of names", 4) from None
        try:
            lists = {word: found[word] for word in LISTS}
            names = cls(found["model_sha256"], tables=found["tables"], rules=found.get("rules", []), **lists)
            names.units = [amount(unit) for unit in names.units]
            if any(type(one) is not str for word in LISTS if word != "units" for one in getattr(names, word)):
                raise ValueError
            if any(type(one) is not str for some in (*names.tables.items(), names.rules) for one in some):
                raise ValueError
            for word in LISTS[2:]:
                "".join(getattr(names, word)).encode()
            "".join((*names.resources, *names.tables.values())).encode()
        except (KeyError, TypeError, ValueError, AttributeError):
            raise Problem(f"{name} is no file of names", 4) from None
        if hash_of(model) != names.model_sha256:
            raise Problem(f"{name}: these names belong to another model than {model}", 4)
        return names

    @classmethod
    def numbers(cls, model: Model) -> Self:
        """Numbers as names, for a model that has none."""
        def count(many: int) -> list[str]:
            return list(map(str, range(many)))
        return cls("", [f"resource {r}" for r in range(model.resources)], [], count(model.machines), [], [],
                   count(model.services), count(model.processes))

    def text(self) -> str:
        """What the file says."""
        words: dict[str, list[str]] = {word: getattr(self, word) for word in LISTS}
        words["units"] = [amount_text(unit) for unit in self.units]
        whole = {"model_sha256": self.model_sha256, **words, "rules": self.rules, "tables": self.tables}
        return json.dumps(whole, ensure_ascii=False, indent=0) + "\n"

    def shown(self, with_rules: bool = False) -> list[int]:
        """The numbers of the resources that are shown: all, or those that don't stand for a rule."""
        everything = range(len(self.resources))
        return [r for r in everything if with_rules or self.resources[r] not in self.rules] or list(everything)

    def amount(self, resource: int, count: int) -> str:
        """So many units of a resource, as people write an amount."""
        return amount_text(count * self.units[resource]) if self.units else str(count)

    def neighbourhood(self, label: int) -> str:
        return self.neighbourhoods[label] if label < len(self.neighbourhoods) else str(label)

    def location(self, label: int) -> str:
        return self.locations[label] if label < len(self.locations) else str(label)

    def cause(self, *cause: str | int) -> str:
        """A broken rule in the program's words, with names in the place of its numbers; as it stands if there are no names."""
        kind, *numbers = cause
        return " ".join((str(kind), *map(str, CAUSES[str(kind)](self, *numbers) if self.model_sha256 else numbers)))

    def line(self, line: str) -> str:
        """The line with which the program refuses a list, by names; any other one as it stands."""
        if found := BROKEN.fullmatch(line):
            return found[1] + self.cause(found[2], *map(int, found[3].split()))
        if found := NO_LIST.fullmatch(line):
            return found[1] + self.processes[int(found[2])] + found[3]
        return line

    def closed_file(self, name: str | None, room: InRoom) -> str | None:
        """The name of a closed list with numbers, as the program reads it: of the file `name` itself if it has nothing else, or
        of one in the room if `name` has a machine's name in each line. None stays None. Raises Problem with status 3 if the file
        can't be read, and 10 if there is no machine of a name."""
        if name is None:
            return None
        text = read_whole(name, status=10)
        if not text.translate(None, b"0123456789 \t\r\n"):
            return name
        machines = {machine: at for at, machine in enumerate(self.machines)}
        closed: list[int] = []
        for at, line in enumerate(text.decode("utf-8-sig", errors="replace").splitlines(), 1):
            machine = line.strip()
            if machine and machine not in machines:
                raise Problem(f"{name}: line {at}: no machine {machine!r}{Mistakes().nearest(machine, self.machines)}", 10)
            closed += [machines[machine]] if machine else []
        write_whole(room("closed"), [list_text(closed)])
        return room("closed")


def room_words(names: Names, machine: int, resource: int, used: int, capacity: int) -> tuple[str, str, str, str]:
    """The words of a capacity that is broken, by names."""
    return names.machines[machine], names.resources[resource], names.amount(resource, used), names.amount(resource, capacity)


CAUSES: dict[str, Callable[..., tuple[str | int, ...]]] = {
    "capacity": room_words,
    "transient": room_words,
    "conflict": lambda names, service, machine: (names.services[service], names.machines[machine]),
    "spread": lambda names, service, has, wants: (names.services[service], has, wants),
    "dependency": lambda names, service, needed, hood: (names.services[service], names.services[needed], names.neighbourhood(hood)),
    "closed": lambda names, process, machine: (names.processes[process], names.machines[machine]),
}


def hash_of(name: str) -> str:
    """The SHA-256 of a model's file."""
    digest = hashlib.sha256()
    try:
        with open(name, "rb", buffering=0) as file:
            for piece in pieces_of(file, name, status=4):
                digest.update(piece)
    except OSError as fault:
        raise Problem(f"{name}: {fault.strerror}") from None
    return digest.hexdigest()
