"""A fleet: what the tables of a folder say."""
from __future__ import annotations

import hashlib
import os
import re
from collections import Counter
from collections.abc import Callable, Mapping, Sequence
from dataclasses import dataclass, field
from fractions import Fraction

from ..files import LARGEST
from ..models import MOST_RESOURCES, Model
from ..names import Names
from ..texts import counted
from .amounts import NoAmount, amount, whole_number
from .measures import Measure, unit_for
from .mistakes import Mistakes, Place
from .packing import model_of, names_of
from .rings import rings
from .rows import Rows, of_type, rows_text, toml_text
from .settings import FILE as SETTINGS, Resource, Settings
from .tables import Row, Table, read_text
from .way_tables import WayPair, read_ways

MACHINES, SERVICES, PROCESSES, WAYS = "machines.csv", "services.csv", "processes.csv", "ways.csv"
PRICE = "price"  # the column of machines.csv that says what a machine costs
MOST_MACHINES, MOST_SERVICES, MOST_PROCESSES, MOST_DEPENDENCIES = 5_000, 50_000, 50_000, 100_000
STATES = ("open", "closed")
SHORTEST_ALIKE = 3  # letters of names that may be told as alike
MOST_OF_A_RING = 8  # services that are named


@dataclass
class Machine:
    name: str
    neighbourhood: str
    location: str
    capacity: list[int]  # by resource, in its unit
    safety: list[int]
    closed: bool
    price: Fraction | None = None


@dataclass
class Service:
    name: str
    spread: int
    depends_on: list[int]  # numbers of services
    requirement: list[int | None]  # by resource, in its unit; None if the table doesn't say it
    skew: int | None = None  # by how much its processes in two locations may differ, which is no rule


@dataclass
class Process:
    name: str
    service: int
    machine: int
    move_cost: int
    requirement: list[int]


@dataclass
class Fleet:
    """Machines, services and processes by their names, in the order of the tables."""

    settings: Settings
    machines: list[Machine]
    services: list[Service]
    processes: list[Process]
    way_pairs: list[WayPair]  # those ways whose cost is written one by one (way_tables.py)
    texts: dict[str, str] = field(repr=False)  # of the files, by their names
    notes: list[str]  # what isn't wrong, and worth knowing

    @classmethod
    def read(cls, folder: str) -> Fleet:
        """The fleet of a folder with machines.csv, services.csv, processes.csv and, if there is one, settings.toml.

        Raises FleetMistakes, which has all that is wrong, with places; its status is 3 if a file can't be read, else 4."""
        if not os.path.isdir(folder):
            mistakes = Mistakes()
            mistakes.unreadable(Place(""), f"{folder} is no folder" if os.path.lexists(folder) else
                                f"there is no folder {folder}")
            mistakes.close()
        return FleetReader(lambda: os.listdir(folder), lambda *asked: read_text(folder, *asked)).read()

    @classmethod
    def of(cls, machines: Rows, services: Rows, processes: Rows, settings: Mapping[str, object] | None = None,
           ways: Rows | None = None) -> Fleet:
        """The fleet of tables whose rows are dicts, with the columns of the files as keys.

        A cell is a text, a number, None if it is empty, or, of `depends_on`, a list of names. `settings` are those of
        settings.toml as a dict, and `ways` the table that they name as `file`. Raises TypeError or ValueError with the argument
        that can't be one, and FleetMistakes as `read` does: the first row is line 2.
        """
        settings = dict(settings or {})
        texts = {file: rows_text(what, rows) for file, what, rows in (
            (MACHINES, "machines", machines), (SERVICES, "services", services), (PROCESSES, "processes", processes))}
        if ways is not None:
            texts[WAYS] = rows_text("ways", ways)
            settings["ways"] = {"file": WAYS} | dict(of_type("settings['ways']", settings.get("ways", {}), Mapping))
        texts[SETTINGS] = toml_text(settings)
        return FleetReader(lambda: list(texts), lambda file, *_: texts.get(file)).read()

    @property
    def resources(self) -> list[Resource]:
        return self.settings.resources

    @property
    def initial(self) -> list[int]:
        """The machine of each process today, as numbers."""
        return [one.machine for one in self.processes]

    @property
    def closed(self) -> list[int]:
        """The numbers of the closed machines."""
        return [at for at, one in enumerate(self.machines) if one.closed]

    def model(self) -> Model:
        """The Model of the fleet, which counts everything in the order of the tables. Raises FleetMistakes if a balance asks
        for more than a model's number can say."""
        return model_of(self)

    def names(self) -> Names:
        """The names of the model's numbers."""
        digest = hashlib.sha256()
        for piece in self.model().pieces():
            digest.update(piece)
        return names_of(self, digest.hexdigest())


def is_one_letter_off(one: str, other: str) -> bool:
    """Whether two names differ in one letter, which may be missing in one of them. Very short ones always do."""
    short, long = sorted((one, other), key=len)
    if len(short) < SHORTEST_ALIKE or len(long) - len(short) > 1 or short == long:
        return False
    at = next((at for at, (a, b) in enumerate(zip(short, long)) if a != b), len(short))
    return short[at + (len(short) == len(long)):] == long[at + 1:]


def is_faultless(table: Table) -> bool:
    """Whether all rows of a table were read."""
    return table.whole and not table.faulty


class FleetReader:
    """Reads tables, and collects what is wrong in them. `files` gives those that are there, and `read_file` the text of one, or
    None, which it tells."""

    def __init__(self, files: Callable[[], list[str]], read_file: Callable[[str, Mistakes, bool], str | None]) -> None:
        self.files, self.read_file, self.mistakes = files, read_file, Mistakes()
        self.notes: list[str] = []
        self.texts: dict[str, str] = {}
        self.remarks = Mistakes()  # what isn't wrong, with its place

    def read(self) -> Fleet:
        self.settings = self.read_settings()
        tables = {file: self.table(file) for file in (MACHINES, SERVICES, PROCESSES)}
        self.find_resources(tables)
        found = {file: table for file, table in tables.items() if table}
        self.machines = self.read_machines(found[MACHINES]) if MACHINES in found else []
        self.services = self.read_services(found[SERVICES]) if SERVICES in found else []
        processes = self.read_processes(found[PROCESSES]) if PROCESSES in found else []
        ways = self.ways_table()
        pairs = read_ways(ways, self.machines, self.mistakes) if ways and self.machines and is_faultless(found[MACHINES]) else []
        self.mistakes.close()
        self.weigh_resources()
        for measure in (*self.capacities, *self.requirements):
            self.notes += measure.notes()
        self.look_at_places()
        self.look_at_zones(found[MACHINES])
        self.look_at_ignored(found)
        self.look_at_services(found[SERVICES], processes)
        self.look_at_sizes(found, processes)
        self.notes += self.remarks.lines()
        return Fleet(self.settings, self.machines, self.services, processes, pairs, self.texts, self.notes)

    # Files and columns

    def read_settings(self) -> Settings:
        text = self.text(SETTINGS, is_needed=False)
        settings = Settings.read(text, self.mistakes)
        settings.sure = settings.sure and (text is not None or not self.mistakes.found)
        return settings

    def ways_table(self) -> Table | None:
        file = self.settings.ways.file
        if file and file not in self.files():
            others = sorted({*self.files()} - {MACHINES, SERVICES, PROCESSES, SETTINGS})
            self.mistakes.unreadable(self.settings.place("ways", 0, "file"), f"there is no file {file!r} in the folder of the fleet"
                                     f"{self.mistakes.nearest(file, others)}")
            return None
        return self.table(file) if file else None

    def text(self, file: str, is_needed: bool = True) -> str | None:
        text = self.read_file(file, self.mistakes, is_needed)
        if text is not None:
            self.texts[file] = text
        return text

    def table(self, file: str) -> Table | None:
        text = self.text(file)
        return None if text is None else Table(file, text, self.mistakes)

    def find_resources(self, tables: dict[str, Table | None]) -> None:
        """Looks which resources there are, what their units are, and whether their columns are there."""
        settings, machines = self.settings, tables[MACHINES]
        own = {"machine", "state", *settings.neighbourhood, *settings.location, *settings.ignored}
        if PRICE not in (name for one in settings.resources for name in (one.name, one.safety)):
            own.add(PRICE)
        missing = self.missing_columns(tables)
        if not settings.resources and machines and settings.sure:
            settings.resources = [Resource(name) for name in dict.fromkeys(machines.columns) if name and name not in own]
        resources = settings.resources
        if machines and machines.columns and not resources and settings.sure:
            self.mistakes.add(Place(MACHINES, machines.header_line), "no column is a resource")
        if len(resources) > MOST_RESOURCES:
            self.mistakes.add(settings.place("resource", MOST_RESOURCES) if settings.places else Place(MACHINES, 1),
                              f"{len(resources)} resources; at most {MOST_RESOURCES} are possible")
        for one in resources:
            if not one.unit:
                one.unit = unit_for(one.name, [table for table in tables.values() if table])
        self.capacities = [Measure(one, self.mistakes, up=False) for one in resources]
        self.requirements = [Measure(one, self.mistakes, up=True) for one in resources]
        self.look_at_balances()
        names = [one.name for one in resources]
        safeties = [one.safety for one in resources if isinstance(one.safety, str)]
        named = [name for name in (*settings.neighbourhood, *settings.location, *names, *safeties) if name not in missing]
        services, processes = tables[SERVICES], tables[PROCESSES]
        for table, needed, known in (
                (machines, ["machine"] + named * settings.sure, {*own, *names, *safeties}),
                (services, ["service", "spread", "depends_on"], {"service", "spread", "skew", "depends_on", *names, *settings.ignored}),
                (processes, ["process", "service", "machine"],
                 {"process", "service", "machine", "move_cost", *names, *settings.ignored})):
            if table:
                table.needs(*needed)
                if settings.sure:
                    table.knows({*known, *missing.values()})
        if services and processes and services.columns and processes.columns:
            lacking = [name for name in names if name not in processes.columns and name not in missing]
            services.needs(*lacking * settings.sure, why=", and processes.csv has none")
            for measure in self.requirements:
                measure.has_failed = measure.resource.name not in {*services.columns, *processes.columns}

    def missing_columns(self, tables: dict[str, Table | None]) -> dict[str, str]:
        """Those columns that the settings name and that aren't there, which is told: each with the column that may be meant, or
        nothing."""
        settings = self.settings
        missing: dict[str, str] = {}
        columns = {file: table.columns for file, table in tables.items() if table and table.columns}
        if len(columns) < len(tables):
            return missing
        everywhere = list(dict.fromkeys(name for some in columns.values() for name in some if name))
        of_machines = [name for name in columns[MACHINES] if name]
        used = {"machine", "state", "service", "spread", "depends_on", "process", "move_cost", *settings.neighbourhood,
                *settings.location, *(name for one in settings.resources for name in (one.name, one.safety))}

        def look(name: str, columns: list[str], where: str, key: tuple[str, int, str]) -> None:
            place = settings.place(*key)
            if name not in columns and name not in missing and place.line:
                free = [one for one in columns if one not in used]
                missing[name] = self.mistakes.near(name, free)
                self.mistakes.add(place, f"{where} column {name!r}{self.mistakes.nearest(name, free)}")
        for word in ("neighbourhood", "location"):
            for name in getattr(settings, word):
                look(name, of_machines, f"{MACHINES} has no", ("", 0, word))
        for at, one in enumerate(settings.resources):
            look(one.name, everywhere, "no table has a", ("resource", at, "name"))
            if isinstance(one.safety, str):
                look(one.safety, of_machines, f"{MACHINES} has no", ("resource", at, "safety"))
        return missing

    def look_at_balances(self) -> None:
        names = [one.name for one in self.settings.resources]
        for at, balance in enumerate(self.settings.balances if names else []):
            for word in ("first", "second"):
                name = getattr(balance, word)
                if name not in names:
                    self.mistakes.add(self.settings.place("balance", at, word), f"no resource {name!r}"
                                      f"{self.mistakes.nearest(name, names)}")

    def weigh_resources(self) -> None:
        """Gives each resource without a load weight one by what the fleet has of it, so that a per cent of each costs alike:
        the least whole numbers that are right within a twentieth."""
        totals = [sum(one.capacity[r] for one in self.machines) for r in range(len(self.settings.resources))]
        free = [(one, total) for one, total in zip(self.settings.resources, totals) if one.load_weight is None]
        shares = [Fraction(max(total for _, total in free), total) for _, total in free if total]
        def is_right(scale: int) -> bool:
            return all(abs(round(scale * share) - scale * share) * 20 <= scale * share for share in shares)
        scale = next(filter(is_right, range(1, 11)), 10)
        for one, total in free:
            one.is_weighed = True
            one.load_weight = min(LARGEST, round(scale * Fraction(max(other for _, other in free), total))) if total else 1

    # Rows

    def numbers(self, table: Table, column: str, what: str, most: int) -> dict[str, int] | None:
        """The numbers of the names in a column, in the order of the rows; those that are wrong are told."""
        at = table.at(column)
        numbers: dict[str, int] = {}
        if len(table.rows) > most:
            several = counted(len(table.rows), what, "processes" if what == "process" else "")
            self.mistakes.add(Place(table.file, table.rows[most].line), f"{several}; at most {most:,} are possible")
        if at is None:
            return None
        if not table.rows and not table.faulty and table.whole:
            self.mistakes.add(Place(table.file, table.header_line), f"the table has no {what}")
        lines: dict[str, int] = {}
        for row in table.rows:
            name = row.cells[at]
            if not name or not name.isprintable():
                self.mistakes.add(table.place(row, at), f"{name!r} is no name" if name else f"this {what} has no name")
            elif name in numbers:
                self.mistakes.add(table.place(row, at), f"{what} {name!r} stands in line {lines[name]} already")
            else:
                numbers[name], lines[name] = len(numbers), row.line
        return numbers

    def number(self, table: Table, row: Row, at: int | None, default: int | None, what: str) -> int | None:
        """A whole number of a cell, or the default if the cell is empty or there is no such column."""
        text = row.cell(at)
        if not text:
            return default
        if whole_number(text) is None:
            self.mistakes.add(table.place(row, at), f"{what}: {text!r} is no whole number from 0 to {LARGEST:,}")
            return default
        return whole_number(text)

    def price(self, table: Table, row: Row, at: int | None, whose: str) -> Fraction | None:
        """What a machine costs, or None if its row doesn't say it."""
        text = row.cell(at)
        try:
            return amount(text) if text else None
        except NoAmount as fault:
            self.mistakes.add(table.place(row, at), f"{whose}: {fault}")
            return None

    def labels(self, table: Table, names: list[str]) -> Callable[[Row], str]:
        """A function that gives what a row has in some columns, taken together."""
        at, name_at = [at for name in names if (at := table.at(name)) is not None], table.at("machine")

        def label(row: Row) -> str:
            for column in at:
                if not row.cells[column]:
                    self.mistakes.add(table.place(row, column), f"machine {row.cell(name_at)!r} has no {table.columns[column]}")
            return "/".join(row.cells[column] for column in at)
        return label

    def read_machines(self, table: Table) -> list[Machine]:
        self.machine_numbers = self.numbers(table, "machine", "machine", MOST_MACHINES)
        self.faulty_machines = table.faulty_names(table.at("machine") or 0)
        if self.machine_numbers is None:
            return []
        hood, location = self.labels(table, self.settings.neighbourhood), self.labels(table, self.settings.location)
        at, state_at = table.at("machine"), table.at("state")
        amounts = [table.at(one.name) for one in self.settings.resources]
        safeties = [table.at(one.safety) if isinstance(one.safety, str) else None for one in self.settings.resources]
        machines = []
        price_at = None if PRICE in (name for one in self.settings.resources for name in (one.name, one.safety)) else table.at(PRICE)
        for row in table.rows:
            name, state = row.cell(at), row.cell(state_at)
            if state and state not in STATES:
                self.mistakes.add(table.place(row, state_at), f"machine {name!r}: {state!r} is no state; it is open or closed"
                                  f"{self.mistakes.nearest(state, list(STATES))}")
            capacity, safety = [], []
            for one, measure, column, safety_at in zip(self.settings.resources, self.capacities, amounts, safeties):
                capacity.append(measure.take(table, row, column, f"machine {name!r}") or 0)
                if isinstance(one.safety, str):
                    safety.append(measure.take(table, row, safety_at, f"machine {name!r}") or 0)
                else:
                    safety.append(measure.share(table, row, column, one.safety) or 0)
            machines.append(Machine(name, hood(row), location(row), capacity, safety, state == "closed",
                                    self.price(table, row, price_at, f"machine {name!r}")))
        return machines

    def read_services(self, table: Table) -> list[Service]:
        self.service_numbers = self.numbers(table, "service", "service", MOST_SERVICES)
        self.faulty_services = table.faulty_names(table.at("service") or 0)
        if self.service_numbers is None:
            return []
        at, spread_at, needs_at, skew_at = (table.at(name) for name in ("service", "spread", "depends_on", "skew"))
        amounts = [table.at(one.name) for one in self.settings.resources]
        names_at = self.service_numbers
        names = list(names_at)
        services, count = [], 0
        for row in table.rows:
            name, needs = row.cell(at), []
            for needed in dict.fromkeys(word.strip() for word in row.cell(needs_at).split(";") if word.strip()):
                if needed in names_at:
                    needs.append(names_at[needed])
                elif self.faulty_services is not None and needed not in self.faulty_services:
                    self.mistakes.add(table.place(row, needs_at), f"service {name!r} depends on {needed!r}, and there is no "
                                      f"such service{self.meant_services(needed, names)}")
            before, count = count, count + len(needs)
            if before <= MOST_DEPENDENCIES < count:
                self.mistakes.add(table.place(row, needs_at), f"more than {MOST_DEPENDENCIES:,} dependencies in all")
            spread = self.number(table, row, spread_at, self.settings.spread, f"service {name!r}: spread") or 0
            requirement = [measure.take(table, row, column, f"service {name!r}", is_needed=False)
                           for measure, column in zip(self.requirements, amounts)]
            skew = self.number(table, row, skew_at, None, f"service {name!r}: skew")
            services.append(Service(name, spread, needs, requirement, skew))
        return services

    def meant_services(self, text: str, names: list[str]) -> str:
        """What was meant by the name of a service that there isn't, or nothing: several need semicolons between them."""
        several = [part for part in re.split(r"[,|/\s]+", text) if part]
        if len(several) > 1 and ("," in text or all(name in names for name in several)):
            return f" (is it {';'.join(several)!r}?); several services are separated by semicolons"
        return self.mistakes.nearest(text, names)

    def read_processes(self, table: Table) -> list[Process]:
        numbers = self.numbers(table, "process", "process", MOST_PROCESSES)
        if numbers is None:
            return []
        at, service_at, machine_at, cost_at = (table.at(name) for name in ("process", "service", "machine", "move_cost"))
        amounts = [table.at(one.name) for one in self.settings.resources]
        find_service = self.finder(table, service_at, "service", self.service_numbers if self.services else None,
                                   self.faulty_services if self.services else None)
        find_machine = self.finder(table, machine_at, "machine", self.machine_numbers if self.machines else None,
                                   self.faulty_machines if self.machines else None)
        processes, resources = [], self.settings.resources
        for row in table.rows:
            name = row.cell(at)
            service, machine = find_service(row, name), find_machine(row, name)
            requirement = [measure.take(table, row, column, f"process {name!r}", is_needed=False)
                           for measure, column in zip(self.requirements, amounts)]
            if service is not None:
                for r, (own, of_service) in enumerate(zip(requirement, self.services[service].requirement)):
                    requirement[r] = of_service if own is None else own
                    if requirement[r] is None and not self.requirements[r].has_failed:
                        self.mistakes.add(Place(table.file, row.line, 0 if (column := amounts[r]) is None else column + 1),
                                          f"process {name!r} has no {resources[r].name}, and neither has service "
                                          f"{self.services[service].name!r}")
            cost = self.number(table, row, cost_at, self.settings.move_cost, f"process {name!r}: move_cost") or 0
            processes.append(Process(name, service or 0, machine or 0, cost, [one or 0 for one in requirement]))
        return processes

    def finder(self, table: Table, at: int | None, what: str, numbers: dict[str, int] | None,
               faulty: set[str] | None) -> Callable[[Row, str], int | None]:
        """A function that gives the number of what a row names, and tells it if there is none."""
        if at is None or not numbers:
            return lambda row, process: None
        known, names = numbers, list(numbers)

        def find(row: Row, process: str) -> int | None:
            name = row.cell(at)
            number = known.get(name)
            if number is None and faulty is not None and name not in faulty:
                self.mistakes.add(table.place(row, at), f"process {process!r}: no {what} {name!r}"
                                  f"{self.mistakes.nearest(name, names)}" if name else f"process {process!r} has no {what}")
            return number
        return find

    # What isn't wrong

    def look_at_places(self) -> None:
        hoods: dict[str, set[str]] = {}
        for one in self.machines:
            hoods.setdefault(one.location, set()).add(one.neighbourhood)
        location, hood = "/".join(self.settings.location), "/".join(self.settings.neighbourhood)
        several = sorted(name for name, some in hoods.items() if len(some) > 1)
        if several and self.settings.neighbourhood != self.settings.location:
            first = several[0]
            self.notes.append(f"{location} {first!r} stands in more than one {hood} ({', '.join(sorted(hoods[first]))}) and is "
                              f"one location for the spread{self.more(several)}; location = [\"{hood}\", \"{location}\"] makes "
                              "them several")
        wide = [one.name for one in self.services if one.spread > len(hoods)]
        if wide:
            self.notes.append(f"service {wide[0]!r} asks for more locations than the {len(hoods)} that there "
                              f"are{self.more(wide)}")

    def look_at_zones(self, table: Table) -> None:
        """Tells a neighbourhood that only one machine has, and whose name is one letter from that of another: a slip of the pen
        would look so."""
        counts = Counter(one.neighbourhood for one in self.machines)
        columns = [table.at(name) for name in self.settings.neighbourhood if table.at(name) is not None]
        for at, one in enumerate(self.machines):
            if counts[one.neighbourhood] == 1 and columns:
                near = next((name for name, count in counts.items() if count > 1 and is_one_letter_off(name, one.neighbourhood)), None)
                if near is not None:
                    self.remarks.add(table.place(table.rows[at], columns[-1]), f"only machine {one.name!r} is in "
                                     f"{one.neighbourhood!r} (is it {near!r}?)")

    def look_at_sizes(self, tables: dict[str, Table], processes: list[Process]) -> None:
        """Tells a service that has more processes than there are machines, and a process that no machine has room for."""
        many = Counter(one.service for one in processes)
        crowded = [at for at in range(len(self.services)) if many[at] > len(self.machines)]
        if crowded:
            first = self.services[crowded[0]].name
            table = tables[SERVICES]
            self.remarks.add(table.place(table.rows[crowded[0]], table.at("service")),
                             f"service {first!r} has {many[crowded[0]]:,} processes, and there are {len(self.machines):,} machines, each "
                             f"for one of them: no list keeps that{self.more(crowded)}")
        most = [max(capacities) for capacities in zip(*(one.capacity for one in self.machines))]
        large = [at for at, one in enumerate(processes) if any(needed > room for needed, room in zip(one.requirement, most))]
        if large:
            one, table = processes[large[0]], tables[PROCESSES]
            resource = next(r for r, room in enumerate(most) if one.requirement[r] > room)
            self.remarks.add(table.place(table.rows[large[0]], table.at("process")),
                             f"process {one.name!r} requires more {self.settings.resources[resource].name} than any machine has: "
                             f"no list keeps that{self.more(large)}")

    def look_at_ignored(self, tables: dict[str, Table]) -> None:
        """Tells names of columns to be passed over that no table has."""
        columns = {name for table in tables.values() for name in table.columns}
        for name in self.settings.ignored:
            if name not in columns:
                self.remarks.add(self.settings.place("", 0, "ignored"), f"no table has the column {name!r} that `ignored` names")

    def look_at_services(self, table: Table, processes: list[Process]) -> None:
        """Tells services that depend on themselves, in rings, or on nothing that runs, and those without processes."""
        used = {one.service for one in processes}

        def remark(at: int, column: str, text: str) -> None:
            self.remarks.add(table.place(table.rows[at], table.at(column)), text)
        for at, one in enumerate(self.services):
            if at in one.depends_on:
                remark(at, "depends_on", f"service {one.name!r} depends on itself, which asks for nothing")
            if at not in used:
                asked = counted(one.spread, "location")
                remark(at, "service", f"service {one.name!r} has no process" + (
                    f", and its spread asks for {asked}: no list keeps that; leave it out, or set its spread to 0" if one.spread else ""))
            for needed in one.depends_on:
                if at in used and needed not in used:
                    remark(at, "depends_on", f"service {one.name!r} depends on {self.services[needed].name!r}, which has no process: "
                           "no list keeps that")
        for ring, count in rings([one.depends_on for one in self.services]):
            named = " > ".join(repr(self.services[at].name) for at in ring[:MOST_OF_A_RING])
            end = f"and so on, {len(ring)} in all" if len(ring) > MOST_OF_A_RING else repr(self.services[ring[0]].name)
            more = f" ({count} services depend on each other in this way)" if count > len(ring) else ""
            remark(ring[0], "depends_on", f"services depend on each other in a ring: {named} > {end}{more}; that is allowed, and "
                   "each of them needs the next in its neighbourhood")

    @staticmethod
    def more(items: Sequence[object]) -> str:
        return f", and so do {len(items) - 1} others" if len(items) > 1 else ""
