"""The settings of a fleet: settings.toml, each of whose words has a default."""
import json
import re
import tomllib
from collections.abc import Callable, Iterable, Iterator
from dataclasses import dataclass, field
from decimal import Decimal
from fractions import Fraction
from typing import Any, Self, TypeVar

from ..files import LARGEST
from .amounts import NoAmount, amount, amount_text
from .mistakes import Mistakes, Place

FILE = "settings.toml"
MOST_BALANCES = 10
T = TypeVar("T")
Readers = dict[str, Callable[[object], object]]


@dataclass
class Resource:
    """A resource. What one of the model's numbers means is `unit`; 0 means that the amounts in the tables decide."""

    name: str
    unit: Fraction = Fraction(0)
    transient: bool = False
    load_weight: int | None = None  # none means that what the fleet has of it decides
    safety: Fraction | str = Fraction(4, 5)  # a share of the capacity, or the name of a column
    rule: bool = False  # whether it stands for a rule that keeps processes to machines, and not for something that they use
    is_weighed: bool = False  # whether the load weight is the default


@dataclass
class Balance:
    """A balance objective. A target that is a fraction is an amount of the second for each 1 of the first; a whole number is
    one of units for each unit."""

    first: str
    second: str
    target: int | Fraction = 1
    weight: int = 1


@dataclass
class Ways:
    """What the way from a machine to another costs, as a number."""

    same_location: int = 1
    same_neighbourhood: int = 2
    elsewhere: int = 5
    file: str = ""


@dataclass
class Weights:
    process: int = 1
    service: int = 10
    machine: int = 1


@dataclass
class Settings:
    """The settings. No resources means that the columns of machines.csv decide. If one is wrong that may name columns, they
    aren't `sure`: nobody knows then which columns there have to be."""

    neighbourhood: list[str] = field(default_factory=lambda: ["zone"])
    location: list[str] = field(default_factory=lambda: ["rack"])
    move_cost: int = 1
    spread: int = 1
    ignored: list[str] = field(default_factory=list)
    resources: list[Resource] = field(default_factory=list)
    balances: list[Balance] = field(default_factory=list)
    ways: Ways = field(default_factory=Ways)
    weights: Weights = field(default_factory=Weights)
    places: dict[tuple[str, int, str], tuple[int, int]] = field(default_factory=dict, repr=False)  # of sections and words in the file
    sure: bool = True

    @classmethod
    def read(cls, text: str | None, mistakes: Mistakes) -> Self:
        """The settings of a text, or the defaults if there is none. Mistakes are added to those that are given."""
        settings = cls()
        try:
            words = tomllib.loads(text or "", parse_float=Decimal)
        except (ValueError, RecursionError) as fault:
            settings.sure = False
            tell_no_toml(text or "", fault, mistakes)
            return settings
        settings.places = places_of(text or "")
        Reader(settings, mistakes).fill(words)
        return settings

    def place(self, section: str, at: int = 0, word: str = "") -> Place:
        """Where a word stands: that of a section, of which there may be several, or a section itself."""
        keys = (section, at, word), (section or word, at, "")
        line, column = next((self.places[key] for key in keys if key in self.places), (0, 0))
        return Place(FILE, line, column)

    def lines(self) -> Iterator[str]:
        """The settings as they are written, each word of them."""
        yield f"neighbourhood = {written_names(self.neighbourhood)}"
        yield f"location = {written_names(self.location)}"
        yield f"move_cost = {self.move_cost}"
        yield f"spread = {self.spread}"
        yield f"ignored = {json.dumps(self.ignored, ensure_ascii=False)}"
        for one in self.resources:
            safety = quoted(one.safety) if isinstance(one.safety, str) else f"{float(one.safety):.10g}"
            yield from ("", "[[resource]]", f"name = {quoted(one.name)}", f"unit = {quoted(amount_text(one.unit))}",
                        f"transient = {str(one.transient).lower()}", f"load_weight = {one.load_weight}", f"safety = {safety}",
                        *["rule = true"] * one.rule)
        for balance in self.balances:
            target = balance.target if isinstance(balance.target, int) else quoted(amount_text(balance.target))
            yield from ("", "[[balance]]", f"first = {quoted(balance.first)}", f"second = {quoted(balance.second)}",
                        f"target = {target}", f"weight = {balance.weight}")
        ways, weights = self.ways, self.weights
        yield from ("", "[ways]", f"same_location = {ways.same_location}", f"same_neighbourhood = {ways.same_neighbourhood}",
                    f"elsewhere = {ways.elsewhere}")
        if ways.file:
            yield f"file = {quoted(ways.file)}"
        yield from ("", "[weights]", f"process = {weights.process}", f"service = {weights.service}",
                    f"machine = {weights.machine}")


def tell_no_toml(text: str, fault: Exception, mistakes: Mistakes) -> None:
    """Tells where a text is no TOML: each value that has no quotation marks, with what to write, and the fault if it is another
    line's."""
    found = re.fullmatch(r"(.*) \(at line (\d+), column (\d+)\)", str(fault))
    place = Place(FILE, int(found[2]), int(found[3])) if found else Place(FILE, text.count("\n") + 1)
    lines = set()
    for line, words in enumerate(text.splitlines(), 1):
        setting = re.fullmatch(r"\s*([\w.-]+)\s*=\s*(.*?)\s*(?:#[^\"]*)?", words)
        meant = meant_value(setting[2]) if setting else None
        if setting and meant:
            lines.add(line)
            mistakes.add(Place(FILE, line, setting.start(2) + 1),
                         f"no TOML: {setting[2]!r} can't be read; write {setting[1]} = {meant}")
    if place.line not in lines:
        mistakes.add(place, f"no TOML: {found[1] if found else fault}")


def meant_value(value: str) -> str | None:
    """What a value has to be written as that TOML can't read, if it lacks its quotation marks or has others; else None."""
    if is_value(value):
        return None
    if value.lower() in ("true", "false"):
        return value.lower()
    if len(value) > 1 and value[0] + value[-1] == "[]":
        items = [item.strip() for item in value[1:-1].split(",") if item.strip()]
        meant = f"[{', '.join(item if is_value(item) else meant_value(item) or item for item in items)}]"
        return meant if is_value(meant) else None
    plain = value.strip("\u201c\u201d\u201e\u2018\u2019")
    return quoted(plain) if re.fullmatch(r"[\w./%:-]+( [\w./%:-]+)*", plain) else None


def is_value(text: str) -> bool:
    """Whether TOML can read a text as a value."""
    try:
        tomllib.loads(f"value = {text}")
    except (ValueError, RecursionError):
        return False
    return True


def quoted(text: str) -> str:
    return json.dumps(text, ensure_ascii=False)


def written_names(names: list[str]) -> str:
    return quoted(names[0]) if len(names) == 1 else json.dumps(names, ensure_ascii=False)


class Wrong(ValueError):
    """A value that a setting can't have; its text says what it can be."""


def whole(value: object) -> int:
    if type(value) is not int or not 0 <= value <= LARGEST:
        raise Wrong(f"a whole number from 0 to {LARGEST:,}")
    return value


def truth(value: object) -> bool:
    if type(value) is not bool:
        raise Wrong("true or false")
    return value


def name(value: object) -> str:
    if type(value) is not str or not value:
        raise Wrong("a name in quotation marks")
    return value


def file(value: object) -> str:
    found = name(value)
    if "/" in found or found.startswith("."):
        raise Wrong("the name of a file in the fleet's folder")
    return found


def names(value: object) -> list[str]:
    if type(value) is not list or any(type(one) is not str for one in value):
        raise Wrong("a list of names in quotation marks")
    return value


def columns(value: object) -> list[str]:
    if type(value) is str and value:
        return [value]
    if value == [] or type(value) is not list or any(type(one) is not str for one in value):
        raise Wrong("the name of a column in quotation marks, or a list of such names")
    return value


def unit(value: object) -> Fraction:
    wrong = "an amount above 0 in quotation marks, such as \"1m\" or \"1Mi\""
    if type(value) is not str:
        raise Wrong(wrong)
    try:
        if not amount(value):
            raise Wrong(wrong)
    except NoAmount:
        raise Wrong(wrong) from None
    return amount(value)


def share(value: object) -> Fraction | str:
    if type(value) is str and value:
        return value
    if isinstance(value, (int, Decimal)) and not isinstance(value, bool) and Decimal(value).is_finite() and 0 <= value <= 1:
        _, _, exponent = Decimal(value).as_tuple()
        if isinstance(exponent, int) and exponent >= -30:
            return Fraction(value)
    raise Wrong("a share of the capacity from 0 to 1, or the name of a column")


def target(value: object) -> int | Fraction:
    if type(value) is str:
        try:
            return amount(value)
        except NoAmount as fault:
            raise Wrong(f"an amount: {fault}") from None
    return whole(value)


OWN: Readers = {"neighbourhood": columns, "location": columns, "move_cost": whole, "spread": whole, "ignored": names}
RESOURCE: Readers = {"name": name, "unit": unit, "transient": truth, "load_weight": whole, "safety": share, "rule": truth}
BALANCE: Readers = {"first": name, "second": name, "target": target, "weight": whole}
WAYS: Readers = {"same_location": whole, "same_neighbourhood": whole, "elsewhere": whole, "file": file}
WEIGHTS: Readers = {"process": whole, "service": whole, "machine": whole}


class Reader:
    """Reads the words of settings into their places."""

    def __init__(self, settings: Settings, mistakes: Mistakes) -> None:
        self.settings, self.mistakes = settings, mistakes

    def fill(self, words: dict[str, Any]) -> None:
        settings = self.settings
        parts = {name: words.pop(name, kind()) for name, kind in
                 (("resource", list), ("balance", list), ("ways", dict), ("weights", dict))}
        self.take(settings, OWN, words, "", also=parts)
        for named, kind in parts.items():
            if named in ("ways", "weights"):
                if self.is_table(kind, named):
                    self.take(getattr(settings, named), {"ways": WAYS, "weights": WEIGHTS}[named], kind, named)
            elif type(kind) is not list:
                self.wrong(("", 0, named), f"{named} has to be written as [[{named}]]")
        settings.resources = self.listed(parts["resource"], "resource", RESOURCE, Resource, ("name",))
        settings.balances = self.listed(parts["balance"], "balance", BALANCE, Balance, ("first", "second"))
        if len(settings.balances) > MOST_BALANCES:
            self.wrong(("balance", MOST_BALANCES, ""), f"{len(settings.balances)} balances; at most {MOST_BALANCES} are possible")
        seen = set()
        for at, one in enumerate(settings.resources):
            if one.name in seen:
                self.wrong(("resource", at, "name"), f"two resources are named {one.name!r}")
            seen.add(one.name)

    def listed(self, items: object, section: str, readers: Readers, kind: Callable[..., T], needed: tuple[str, ...]) -> list[T]:
        made = []
        for at, item in enumerate(items if type(items) is list else []):
            if not self.is_table(item, section, at):
                continue
            lacking = [word for word in needed if word not in item]
            for word in lacking:
                self.wrong((section, at, ""), f"this {section} has no {word!r}")
            one = kind(*[item.get(word) for word in needed])
            self.take(one, readers, item, section, at)
            if not lacking:
                made.append(one)
        return made

    def is_table(self, item: object, section: str, at: int = 0) -> bool:
        if type(item) is dict:
            return True
        self.wrong((section, at, ""), f"[{section}] has to be a table")
        return False

    def take(self, into: object, readers: Readers, words: dict[str, Any], section: str, at: int = 0, also: Iterable[str] = ()) -> None:
        """Sets what the words say."""
        for word, value in words.items():
            if word not in readers:
                hint = self.mistakes.nearest(word, [*readers, *also])
                self.wrong((section, at, word), f"no setting {word!r}{f' of [{section}]' if section else ''}{hint}")
                continue
            try:
                setattr(into, word, readers[word](value))
            except Wrong as wrong:
                self.wrong((section, at, word), f"{word} has to be {wrong}")

    def wrong(self, key: tuple[str, int, str], text: str) -> None:
        if key[0] in ("", "resource"):
            self.settings.sure = False
        self.mistakes.add(self.settings.place(*key), text)


def places_of(text: str) -> dict[tuple[str, int, str], tuple[int, int]]:
    """The line and column of each section and word, by (section, number of the section, word)."""
    places: dict[tuple[str, int, str], tuple[int, int]] = {}
    counts: dict[str, int] = {}
    section, at = "", 0
    for line, words in enumerate(text.splitlines(), 1):
        if found := re.match(r"\s*(\[+)\s*\"?([\w-]+)\"?\s*\]+", words):
            section = found[2]
            at = counts.get(section, -1) + 1
            counts[section] = at
            places[section, at, ""] = line, found.start(1) + 1
        elif found := re.match(r"\s*(\"?)([\w.-]+)\1\s*=", words):
            places.setdefault((section, at, found[2]), (line, found.start(1) + 1))
    return places
