"""By how much the processes of a service in two locations differ. That is no rule of a model: it is told beside the rules."""
from collections import Counter
from collections.abc import Iterator
from dataclasses import asdict, dataclass

from ..models import Model
from ..names import Names
from .amounts import whole_number
from .fleet import SERVICES
from .tables import rows_of


@dataclass(frozen=True)
class Skew:
    """A service that has more processes in one location, compared with another, than its column `skew` says."""

    service: str
    most_in: str
    most: int
    least_in: str
    least: int
    allowed: int
    today: int

    def told(self) -> str:
        return (f"note: {self.service} has {self.most} in {self.most_in} and {self.least} in {self.least_in}: its skew is "
                f"{self.most - self.least}, today {self.today}, and {self.allowed} is asked for")

    def as_words(self) -> dict[str, int | str]:
        return asdict(self)


def allowed_skews(names: Names) -> dict[int, int]:
    """What the column `skew` says, by the numbers of services."""
    header, *rows = [row.cells for row in rows_of(names.tables.get(SERVICES, ""))] or [[]]
    if "skew" not in header or "service" not in header:
        return {}
    numbers, at, skew_at = {name: number for number, name in enumerate(names.services)}, header.index("service"), header.index("skew")
    found = {numbers.get(row[at]): whole_number(row[skew_at]) for row in rows if len(row) > max(at, skew_at)}
    return {number: skew for number, skew in found.items() if number is not None and skew is not None}


def broken_skews(model: Model, names: Names, today: list[int], now: list[int]) -> Iterator[Skew]:
    """The skews that a list breaks and today's placement doesn't, or not as much."""
    members = model.members()
    for service, allowed in allowed_skews(names).items():
        if members[service]:
            places = places_for(model, members[service])
            before, after = (Counter(model.locations[some[p]] for p in members[service]) for some in (today, now))
            most, least = max(places, key=after.__getitem__), min(places, key=after.__getitem__)
            skew, was = after[most] - after[least], max(before[one] for one in places) - min(before[one] for one in places)
            if skew > max(allowed, was):
                yield Skew(names.services[service], names.location(most), after[most], names.location(least), after[least], allowed, was)


def places_for(model: Model, members: list[int]) -> list[int]:
    """The locations with a machine that is large enough for the first of these processes."""
    required = model.required[members[0]]
    return sorted({location for location, capacity in zip(model.locations, model.capacity)
                   if all(map(int.__le__, required, capacity))}) or [0]
