"""Broken rules by their names."""
from collections.abc import Callable, Iterator, Sequence

from .broken_rules import Broken
from .models import Model
from .names import Names
from .texts import counted, some

MOST_NAMED = 2  # processes that are named in a line


def told(rule: Broken, names: Names, model: Model) -> str:
    """A broken rule in one line."""
    kind, *numbers = rule.cause
    return f"{kind:<10}  {TOLD[str(kind)](rule, names, model, *numbers)}"


def room(rule: Broken, names: Names, model: Model, machine: int, r: int, used: int, capacity: int) -> str:
    return (f"{names.machines[machine]}: {names.resources[r]} {used:,} of {capacity:,} ({share_of(used, capacity)}): "
            f"{named(rule.processes, names)}")


def conflict(rule: Broken, names: Names, model: Model, service: int, machine: int) -> str:
    return f"{names.machines[machine]}: {len(rule.processes)} of service {names.services[service]}: {named(rule.processes, names)}"


def spread(rule: Broken, names: Names, model: Model, service: int, has: int, wants: int) -> str:
    return f"{names.services[service]}: in {counted(has, 'location')} and has to be in {wants}"


def dependency(rule: Broken, names: Names, model: Model, service: int, needed: int, hood: int) -> str:
    return (f"{names.services[service]} needs {names.services[needed]}, which isn't in {names.neighbourhood(hood)}: "
            f"{named(rule.processes, names)}")


def closed(rule: Broken, names: Names, model: Model, process: int, machine: int) -> str:
    return f"{names.machines[machine]}: is closed, and {names.processes[process]} moves there"


TOLD: dict[str, Callable[..., str]] = {"capacity": room, "transient": room, "conflict": conflict, "spread": spread, "dependency": dependency, "closed": closed}


def named(processes: Sequence[int], names: Names) -> str:
    """Some processes by their names, and how many more there are."""
    return some([names.processes[p] for p in processes], MOST_NAMED) or "no process"


def share_of(used: int, capacity: int) -> str:
    """A share in words."""
    if not capacity:
        return "of none"
    share = f"{100 * used / capacity:.0f} %"
    return share if used <= capacity or share != "100 %" else f"{100 * used / capacity:.2f} %"


def fullest(names: Names, model: Model, now: list[int], top: int = 3) -> Iterator[str]:
    """The machines that are fullest of the resources whose load costs something, by names."""
    rooms = [(used / capacity, machine, r, used, capacity)
             for machine, rows in enumerate(zip(model.use(now), model.capacity))
             for r, (used, capacity) in enumerate(zip(*rows)) if used and capacity and model.load_weights[r]]
    for _, machine, r, used, capacity in sorted(rooms, key=lambda one: (-one[0], *one[1:3]))[:top]:
        yield f"{names.machines[machine]} {names.resources[r]} {used:,} of {capacity:,} ({share_of(used, capacity)})"
