"""The edits that make the model of one fleet that of another (docs/FORMATS.md, "The file of edits")."""
from collections.abc import Callable, Iterable, Iterator, Sequence
from dataclasses import dataclass, fields
from fractions import Fraction
from typing import Any, TypeVar

from ..texts import counted
from .amounts import amount_text
from .fleet import Fleet, Machine, Process, Service
from .mistakes import FleetMistakes, Mistake, cut_short

MOST_EDITS = 100_000
MOST_NAMED = 3  # rows that are named in a line about many
ADD, RETIRE, RESIZE = 1, 2, 3
T = TypeVar("T", Machine, Service, Process)
Word = tuple[str, Any, Any, Callable[[Any], str]]  # what may differ, its value in both, and how that is written


@dataclass(frozen=True)
class Change:
    """An edit: its numbers as the file of edits has them, and what it does, by names."""

    numbers: tuple[int, ...]
    told: str


@dataclass(frozen=True)
class Difference:
    """What differs between two fleets and can't be an edit: a row by its name, and what is said of it."""

    row: str  # machine, service or process
    name: str
    word: str  # what differs
    said: str


def read_both(read: Callable[[str], Fleet], folders: Iterable[str]) -> list[Fleet]:
    """The fleets of two folders, by the function that reads one. Raises FleetMistakes with the mistakes of both, whose files
    have their folders."""
    fleets: list[Fleet] = []
    wrong: list[Mistake] = []
    status = 4
    for folder in folders:
        try:
            fleets.append(read(folder))
        except FleetMistakes as fault:
            wrong += fault.within(folder)
            status = min(status, fault.status)
    if wrong:
        raise FleetMistakes(wrong, status)
    return fleets


def obstacles(old: Fleet, new: Fleet) -> tuple[int, list[str]]:
    """What differs between two fleets and can't be an edit: how many differences there are, and the lines that tell them.
    First come the settings, then machines, services and processes in the order of their files. What is the same for many rows
    is one line."""
    settings = [*differing_resources(old, new), *differing_settings(old, new)]
    rows = [*differing_machines(old, new), *differing_services(old, new), *differing_processes(old, new)]
    lines = cut_short(grouped(rows), lambda group: (group[0].row, group[0].word), told,
                      lambda group, count: f"{group[0].row}: and {count:,} more lines of this kind")
    return len(settings) + len(rows), [*settings, *lines]


def grouped(differences: list[Difference]) -> list[list[Difference]]:
    """Differences in groups that say the same of several rows, in the order of their first ones. A few are told apart."""
    groups: dict[tuple[str, str, str], list[Difference]] = {}
    for one in differences:
        groups.setdefault((one.row, one.word, one.said), []).append(one)
    found = []
    for one in differences:
        group = groups[one.row, one.word, one.said]
        if len(group) <= MOST_NAMED:
            found.append([one])
        elif one is group[0]:
            found.append(group)
    return found


def told(group: list[Difference]) -> str:
    """The line of a group of differences."""
    first = group[0]
    if len(group) == 1:
        return f"{first.row} {first.name!r}: {first.said}"
    named = ", ".join(repr(one.name) for one in group[:MOST_NAMED])
    return (f"{counted(len(group), first.row, 'processes' if first.row == 'process' else '')}: {first.said} "
            f"({named} and {counted(len(group) - MOST_NAMED, 'other')})")


def setting_text(value: object) -> str:
    """The value of a setting as it is told."""
    if isinstance(value, Fraction):
        return f"{float(value):.10g}"
    return str(value).lower() if isinstance(value, bool) else repr(value)


def differing_resources(old: Fleet, new: Fleet) -> Iterator[str]:
    """The lines about resources and their settings."""
    before, after = ({one.name: one for one in fleet.resources} for fleet in (old, new))
    for name, was in before.items():
        if name not in after:
            yield f"resource {name!r}: only in the old fleet"
            continue
        one = after[name]
        if one.unit != was.unit:
            yield f"resource {name!r}: unit is {amount_text(one.unit)} and was {amount_text(was.unit)}"
        for word in ("transient", "load_weight", "safety"):
            if word == "load_weight" and one.is_weighed and was.is_weighed:
                continue  # a default, by the capacities
            if getattr(one, word) != getattr(was, word):
                effect = f", for each of {counted(len(new.machines), 'machine')}" if word == "safety" else ""
                yield (f"resource {name!r}: {word} is {setting_text(getattr(one, word))} and was "
                       f"{setting_text(getattr(was, word))}{effect}")
    yield from (f"resource {name!r}: only in the new fleet" for name in after if name not in before)
    if list(before) != list(after) and before.keys() == after.keys():
        yield "the resources stand in another order"


def differing_settings(old: Fleet, new: Fleet) -> Iterator[str]:
    """The lines about balances, ways and weights."""
    if old.settings.balances != new.settings.balances:
        yield "settings.toml: the balances differ"
    for section in ("ways", "weights"):
        was, one = getattr(old.settings, section), getattr(new.settings, section)
        for word in (field.name for field in fields(one) if field.name != "file"):
            if getattr(was, word) != getattr(one, word):
                yield f"settings.toml: [{section}] {word} is {getattr(one, word)} and was {getattr(was, word)}"
    if sorted(map(repr, old.way_pairs)) != sorted(map(repr, new.way_pairs)):
        yield f"{new.settings.ways.file or old.settings.ways.file}: the costs of ways differ"


def differing(row: str, old: Sequence[T], new: Sequence[T], words: Callable[[T, T], Iterable[Word]]) -> Iterator[Difference]:
    """The differences between two lists of things with names, by a function for what is in both. It gives words, each with its
    value in both, and how the value is written."""
    before, after = ({one.name: one for one in some} for some in (old, new))
    for name, was in before.items():
        if name not in after:
            yield Difference(row, name, "old", "only in the old fleet")
            continue
        for word, past, now, text in words(was, after[name]):
            if past != now:
                yield Difference(row, name, word, f"{word} is {text(now)} and was {text(past)}")
    yield from (Difference(row, name, "new", "only in the new fleet") for name in after if name not in before)


def differing_machines(old: Fleet, new: Fleet) -> Iterator[Difference]:
    before, after = ({one.name: (at, one) for at, one in enumerate(fleet.resources)} for fleet in (old, new))
    common = [(*before[name], *after[name]) for name in before if name in after and before[name][1].unit == after[name][1].unit]

    def words(was: Machine, one: Machine) -> Iterator[Word]:
        yield "state", was.closed, one.closed, lambda closed: "closed" if closed else "open"
        for word in ("neighbourhood", "location"):
            yield word, getattr(was, word), getattr(one, word), repr
        for past, resource, now, other in common:
            text = lambda count: amount_text(count * resource.unit)
            yield f"capacity of {resource.name}", was.capacity[past], one.capacity[now], text
            # Another setting is told once for all machines, and a share of another capacity goes without saying.
            if resource.safety == other.safety and (isinstance(resource.safety, str) or was.capacity[past] == one.capacity[now]):
                yield f"safety of {resource.name}", was.safety[past], one.safety[now], text
    return differing("machine", old.machines, new.machines, words)


def differing_services(old: Fleet, new: Fleet) -> Iterator[Difference]:
    def words(was: Service, one: Service) -> Iterator[Word]:
        yield "spread", was.spread, one.spread, str
        past, now = (sorted(fleet.services[at].name for at in some.depends_on) for fleet, some in ((old, was), (new, one)))
        yield "depends_on", past, now, lambda names: repr(";".join(names))
    return differing("service", old.services, new.services, words)


def differing_processes(old: Fleet, new: Fleet) -> Iterator[Difference]:
    """Those of processes that are in both fleets: others are retired or added."""
    def words(was: Process, one: Process) -> Iterator[Word]:
        yield "service", old.services[was.service].name, new.services[one.service].name, repr
        yield "machine", old.machines[was.machine].name, new.machines[one.machine].name, repr
        yield "move_cost", was.move_cost, one.move_cost, str
    return (one for one in differing("process", old.processes, new.processes, words) if one.word not in ("old", "new"))


def changes(old: Fleet, new: Fleet) -> list[Change]:
    """The edits from one fleet to another, between which `obstacles` found nothing. Those come first that need no room: who
    requires less of everything, and who is retired; then who is added, and who requires more."""
    machines = {one.name: at for at, one in enumerate(old.machines)}
    services = {one.name: at for at, one in enumerate(old.services)}
    order = [one.name for one in old.processes]
    numbers = {name: at for at, name in enumerate(order)}
    before, after = ({one.name: one for one in fleet.processes} for fleet in (old, new))
    resized = [one for one in new.processes if one.name in before and one.requirement != before[one.name].requirement]
    smaller = [one for one in resized if all(map(int.__le__, one.requirement, before[one.name].requirement))]
    found = [resize(numbers, one) for one in smaller]
    for one in old.processes:
        if one.name not in after:
            at, last = numbers.pop(one.name), order.pop()
            if last != one.name:
                order[at] = last
                numbers[last] = at
            found.append(Change((RETIRE, at), f"retire {one.name}"))
    for one in new.processes:
        if one.name not in before:
            numbers[one.name] = len(order)
            order.append(one.name)
            service, machine = new.services[one.service].name, new.machines[one.machine].name
            found.append(Change((ADD, services[service], machines[machine], *one.requirement, one.move_cost),
                                f"add {one.name} of {service} on {machine}"))
    small = {one.name for one in smaller}
    return found + [resize(numbers, one) for one in resized if one.name not in small]


def resize(numbers: dict[str, int], process: Process) -> Change:
    return Change((RESIZE, numbers[process.name], *process.requirement), f"resize {process.name}")


def edits_text(found: list[Change]) -> str:
    """The file of edits, one in each line."""
    return "".join(" ".join(map(str, one.numbers)) + "\n" for one in found)
