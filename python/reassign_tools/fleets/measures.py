"""Amounts in the cells of tables, as numbers of a model."""
from collections import Counter
from collections.abc import Iterator
from dataclasses import dataclass, field
from fractions import Fraction

from ..files import LARGEST
from ..texts import counted
from .amounts import NoAmount, amount, amount_text, in_units, loses_much, suffix_of
from .mistakes import Mistakes, Place
from .settings import Resource
from .tables import Row, Table

MOST_TOLD = 3  # amounts that are named as losing by rounding


@dataclass
class Measure:
    """Reads the amounts of a resource: capacities, which are rounded down, or requirements, which are rounded up."""

    resource: Resource
    mistakes: Mistakes
    up: bool
    counts: dict[str, int] = field(default_factory=dict)  # of units, by the text of the cell
    seen: Counter[str] = field(default_factory=Counter)  # how often a text that loses much was read
    first: dict[str, Place] = field(default_factory=dict)  # where it was read first
    has_failed: bool = False  # an amount was told as a mistake

    def take(self, table: Table, row: Row, at: int | None, whose: str, is_needed: bool = True) -> int | None:
        """The number for a cell; None if the cell is empty or wrong. What is wrong is told."""
        text = row.cell(at)
        if not text:
            if is_needed and at is not None:
                self.wrong(table, row, at, f"{whose} has no {table.columns[at]}")
            return None
        if text not in self.counts:
            try:
                value = amount(text)
            except NoAmount as fault:
                self.wrong(table, row, at, f"{whose}: {fault}")
                return None
            self.counts[text] = in_units(value, self.resource.unit, self.up)
            if loses_much(value, self.resource.unit, self.counts[text]):
                self.first[text] = table.place(row, at)
        count = self.counts[text]
        if count > LARGEST:
            self.wrong(table, row, at, f"{whose}: {text} is {count:,} times the unit {amount_text(self.resource.unit)}, and at "
                       f"most {LARGEST:,} are possible; give {self.resource.name} a larger unit")
            return None
        if text in self.first:
            self.seen[text] += 1
        return count

    def share(self, table: Table, row: Row, at: int | None, part: Fraction) -> int | None:
        """A share of the amount in a cell, rounded down; None if there is none."""
        text = row.cell(at)
        return in_units(amount(text) * part, self.resource.unit, False) if text in self.counts else None

    def wrong(self, table: Table, row: Row, at: int | None, text: str) -> None:
        self.has_failed = True
        self.mistakes.add(table.place(row, at), text)

    def notes(self) -> Iterator[str]:
        """Tells where rounding takes more than a hundredth."""
        if self.seen:
            unit, name = amount_text(self.resource.unit), self.resource.name
            most = sorted(self.seen, key=self.error, reverse=True)
            told = "; ".join(map(self.rounded, most[:MOST_TOLD]))
            yield (f"{name}: rounding {'up' if self.up else 'down'} to whole units of {unit} changes "
                   f"{counted(sum(self.seen.values()), 'amount')} by more than a hundredth, most of all {told}")

    def rounded(self, text: str) -> str:
        """What becomes of an amount, and where. If it has no suffix and most have one, that one may have been meant."""
        place, count = self.first[text], self.counts[text]
        suffix, _ = Counter(map(suffix_of, self.counts)).most_common(1)[0]
        hint = f" (is it '{text}{suffix}'?)" if suffix and not suffix_of(text) and count <= 1 else ""
        return f"{place.file}:{place.line}: {text} becomes {count:,}{hint} in column {place.column} '{place.heading}'"

    def error(self, text: str) -> Fraction:
        value = amount(text)
        return abs(self.counts[text] * self.resource.unit - value) / value


def unit_for(name: str, tables: list[Table]) -> Fraction:
    """The unit of a resource for which the settings name none, by how its amounts are written in the tables: 1Mi if one has
    the suffix of a power of 1024, else 1M if one is in millions or more, else 1m if one has a part of 1, else 1."""
    texts = {row.cells[at] for table in tables if (at := table.at(name)) is not None for row in table.rows}
    found = set()
    for text in texts:
        try:
            value = amount(text)
        except NoAmount:
            continue
        suffix = suffix_of(text)
        found.add("1Mi" if suffix.endswith("i") else "1M" if suffix in ("M", "G", "T", "P", "E") else
                  "1m" if value.denominator > 1 else "1")
    return amount(next((unit for unit in ("1Mi", "1M", "1m") if unit in found), "1")) + Fraction(0)
