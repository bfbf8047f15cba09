"""Every rule that an assignment breaks. `reassign check` names the first one; here are all of them."""
from collections import Counter
from collections.abc import Iterator
from dataclasses import dataclass

from .models import Model
from .states import Cause

KINDS = ("capacity", "transient", "conflict", "spread", "dependency", "closed")


@dataclass(frozen=True)
class Broken:
    """A broken rule: the words and numbers of the program's line, how far it is broken, and whose processes break it."""

    cause: Cause
    far: float
    processes: tuple[int, ...]

    @property
    def line(self) -> str:
        return " ".join(map(str, self.cause))


def broken_rules(model: Model, start: list[int], now: list[int], closed: list[bool]) -> list[Broken]:
    """All rules that the list `now` breaks if it is reached from `start`, in the order of the kinds, and of each kind the one
    first that is broken furthest. `closed` has a flag for each machine."""
    rules = [*broken_rooms(model, start, now), *broken_conflicts(model, now), *broken_spreads(model, now),
             *broken_dependencies(model, now), *broken_closed(start, now, closed)]
    return sorted(rules, key=lambda one: (KINDS.index(one.cause[0]), -one.far, one.cause[1:]))


def broken_rooms(model: Model, start: list[int], now: list[int]) -> Iterator[Broken]:
    """Capacities and transient capacities."""
    use, held = model.use(now), model.left_behind(start, now)
    here: dict[int, list[int]] = {}
    left: dict[int, list[int]] = {}
    full = [machine for machine, rows in enumerate(zip(use, held, model.capacity))
            if any(used > room or flag and used + out > room for used, out, room, flag in zip(*rows, model.transient))]
    for process, (home, machine) in enumerate(zip(start, now)):
        here.setdefault(machine, []).append(process)
        if home != machine:
            left.setdefault(home, []).append(process)
    for machine in full:
        for r, room in enumerate(model.capacity[machine]):
            for kind, used, some in (("capacity", use[machine][r], here.get(machine, [])),
                                     ("transient", use[machine][r] + held[machine][r],
                                      [*here.get(machine, []), *left.get(machine, [])])):
                if used > room and (kind == "capacity" or model.transient[r]):
                    asking = sorted((p for p in some if model.required[p][r]), key=lambda p: (-model.required[p][r], p))
                    yield Broken((kind, machine, r, used, room), used / room if room else float("inf"), tuple(asking))


def broken_conflicts(model: Model, now: list[int]) -> Iterator[Broken]:
    counts = Counter(zip(model.service, now))
    several = {pair for pair, count in counts.items() if count > 1}
    together: dict[tuple[int, int], list[int]] = {}
    for process, pair in enumerate(zip(model.service, now)):
        if pair in several:
            together.setdefault(pair, []).append(process)
    for (service, machine), some in together.items():
        yield Broken(("conflict", service, machine), len(some) - 1, tuple(some))


def places_of(model: Model, labels: list[int], now: list[int]) -> list[set[int]]:
    """The labels on which the processes of each service stand."""
    places: list[set[int]] = [set() for _ in range(model.services)]
    for service, machine in zip(model.service, now):
        places[service].add(labels[machine])
    return places


def broken_spreads(model: Model, now: list[int]) -> Iterator[Broken]:
    locations = places_of(model, model.locations, now)
    for service, (wants, has) in enumerate(zip(model.spreads, locations)):
        if len(has) < wants:
            yield Broken(("spread", service, len(has), wants), wants - len(has), ())


def broken_dependencies(model: Model, now: list[int]) -> Iterator[Broken]:
    hoods = places_of(model, model.hoods, now)
    members: list[list[int]] = []
    for service, needs in enumerate(model.needs):
        for needed in dict.fromkeys(needs):
            lonely = hoods[service] - hoods[needed]
            if lonely and not members:
                members = model.members()
            for hood in sorted(lonely):
                some = tuple(p for p in members[service] if model.hoods[now[p]] == hood)
                yield Broken(("dependency", service, needed, hood), len(some), some)


def broken_closed(start: list[int], now: list[int], closed: list[bool]) -> Iterator[Broken]:
    for process, (home, machine) in enumerate(zip(start, now)):
        if home != machine and closed[machine]:
            yield Broken(("closed", process, machine), 1, (process,))
