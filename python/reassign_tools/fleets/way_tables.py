"""What ways cost: by neighbourhoods and locations, or pair by pair."""
from __future__ import annotations

from collections.abc import Sequence
from dataclasses import dataclass
from typing import TYPE_CHECKING

from ..files import LARGEST
from .amounts import whole_number
from .mistakes import Mistakes
from .settings import Ways
from .tables import Table

if TYPE_CHECKING:
    from .fleet import Machine


@dataclass(frozen=True)
class WayPair:
    """The cost of the ways from some machines to others: both a machine, a location or a neighbourhood."""

    kind: str
    start: str
    end: str
    cost: int


KINDS = ("machine", "location", "neighbourhood")


def read_ways(table: Table, machines: Sequence[Machine], mistakes: Mistakes) -> list[WayPair]:
    """The pairs of a table with the columns from, to and cost."""
    table.needs("from", "to", "cost")
    table.knows({"from", "to", "cost"})
    start_at, end_at, cost_at = (table.at(name) for name in ("from", "to", "cost"))
    if None in (start_at, end_at, cost_at):
        return []
    known = {"machine": {one.name for one in machines}, "location": {one.location for one in machines},
             "neighbourhood": {one.neighbourhood for one in machines}}
    names = sorted(set().union(*known.values()))
    pairs: list[WayPair] = []
    lines: dict[tuple[str, str], int] = {}
    for row in table.rows:
        start, end, cost = row.cell(start_at), row.cell(end_at), row.cell(cost_at)
        number = whole_number(cost)
        for at, name in ((start_at, start), (end_at, end)):
            if not any(name in some for some in known.values()):
                mistakes.add(table.place(row, at), f"{name!r} is no machine, location or neighbourhood"
                             f"{mistakes.nearest(name, names)}")
        if number is None:
            mistakes.add(table.place(row, cost_at), f"{cost!r} is no whole number from 0 to {LARGEST:,}")
            continue
        kind = next((kind for kind in KINDS if start in known[kind] and end in known[kind]), None)
        if kind is None and all(any(name in some for some in known.values()) for name in (start, end)):
            mistakes.add(table.place(row, end_at), f"{start!r} and {end!r} aren't both machines, locations or neighbourhoods")
        if (start, end) in lines:
            mistakes.add(table.place(row, start_at), f"the way from {start!r} to {end!r} stands in line {lines[start, end]} "
                         "already")
        lines[start, end] = row.line
        pairs.append(WayPair(kind or "", start, end, number))
    return pairs


def way_rows(machines: Sequence[Machine], ways: Ways, pairs: list[WayPair]) -> list[bytes]:
    """The costs of the ways from each machine, in one row of bytes. A way from a machine to itself costs nothing."""
    by_kind = {kind: [pair for pair in pairs if pair.kind == kind] for kind in KINDS}
    members: dict[str, dict[str, list[int]]] = {"location": {}, "neighbourhood": {}}
    for at, one in enumerate(machines):
        members["location"].setdefault(one.location, []).append(at)
        members["neighbourhood"].setdefault(one.neighbourhood, []).append(at)
    numbers = {one.name: at for at, one in enumerate(machines)}
    single: dict[int, list[tuple[int, bytes]]] = {}
    for pair in by_kind["machine"]:
        single.setdefault(numbers[pair.start], []).append((numbers[pair.end], b"%d" % pair.cost))

    def common_row(location: str, hood: str) -> list[bytes]:
        row = [b"%d" % ways.elsewhere] * len(machines)
        groups = [("neighbourhood", hood, ways.same_neighbourhood)]
        groups += [("neighbourhood", pair.end, pair.cost) for pair in by_kind["neighbourhood"] if pair.start == hood]
        groups += [("location", location, ways.same_location)]
        groups += [("location", pair.end, pair.cost) for pair in by_kind["location"] if pair.start == location]
        for kind, name, cost in groups:
            for at in members[kind][name]:
                row[at] = b"%d" % cost
        return row

    rows, common = [], {}
    for at, one in enumerate(machines):
        key = one.location, one.neighbourhood
        if key not in common:
            common[key] = common_row(*key)
        row = list(common[key])
        for end, cost in single.get(at, ()):
            row[end] = cost
        row[at] = b"0"
        rows.append(b" ".join(row))
    return rows
