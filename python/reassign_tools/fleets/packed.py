"""The files that `named pack` wrote, read again."""
import os
from dataclasses import dataclass
from typing import Self

from ..broken_rules import Broken, broken_rules
from ..files import Room, list_text, write_whole
from ..models import Model, closed_flags, same_sizes
from ..names import Names
from ..problems import Problem
from ..program import Program
from ..reports import read_placement
from ..texts import counted
from .fleet import PROCESSES
from .packing import whole_folder
from .skews import Skew, broken_skews
from .tables import rows_of, table_text


@dataclass
class Packed:
    """A model with the names that belong to it, and today's placement."""

    folder: str
    names: Names
    initial: list[int]

    @classmethod
    def read(cls, folder: str) -> Self:
        """The packed fleet of a folder. Raises Problem if its files can't be read or don't belong together."""
        names = Names.read(os.path.join(folder, "names.json"), os.path.join(folder, "model"))
        packed = cls(folder, names, [])
        packed.initial = packed.placement(packed.file("initial"))
        return packed

    def file(self, name: str) -> str:
        return os.path.join(self.folder, name)

    def placement(self, name: str) -> list[int]:
        """The machines of a list or report, which has to have one of this fleet for each process."""
        found, processes, machines = read_placement(name), self.names.processes, self.names.machines
        if not found:
            raise Problem(f"{name} is an empty list; one of {self.folder} has a machine for each of "
                          f"{counted(len(processes), 'process', 'processes')}", 5)
        if len(found) != len(processes):
            raise Problem(f"{name} has {counted(len(found), 'machine')}, and {self.folder} has "
                          f"{counted(len(processes), 'process', 'processes')}: they don't belong together", 5)
        for process, machine in zip(processes, found):
            if machine >= len(machines):
                raise Problem(f"{name} puts {process} on machine {machine}, and {self.folder} has "
                              f"{counted(len(machines), 'machine')}, counted from 0: they don't belong together", 5)
        return found


@dataclass
class Judgement:
    """What `reassign check` says of a list, and all rules that today's placement and the list break."""

    status: int | None
    lines: list[str]  # what the program prints
    error: str  # its line on standard error
    model: Model
    initial_rules: list[Broken]
    rules: list[Broken]
    skews: list[Skew]  # that the list breaks beside today's, which is no rule


def judge(packed: Packed, program: Program, name: str) -> Judgement:
    """Judges a list or report by the program and by the rules here, which have to agree."""
    now = packed.placement(name)
    closed = packed.file("closed")
    with Room() as room:
        write_whole(room("list"), [list_text(now)])
        status, lines, error = program.run("check", packed.file("model"), packed.file("initial"), room("list"), "--closed", closed,
                                           endings=(0, 6))
        error = error.replace(room("list"), name, 1)
    model = Model.read(packed.file("model"))
    same_sizes(model, name, packed.initial, now)
    flags = closed_flags(model, closed)
    initial_rules = broken_rules(model, packed.initial, packed.initial, flags)
    rules = broken_rules(model, packed.initial, now, flags)
    first = initial_rules or rules
    agrees = any(error.endswith(f": {one.line}") for one in first) if status else not first
    if not agrees:
        raise Problem(f"the program says {error or 'feasible'!r}, and the rules here say otherwise: is it the program of this "
                      "package's version?", 1)
    return Judgement(status, lines, error, model, initial_rules, rules,
                     list(broken_skews(model, packed.names, packed.initial, now)))


def unpack(packed: Packed, now: list[int], folder: str) -> None:
    """Writes the tables of a packed fleet into a new folder, with the machines of a list."""
    if os.path.lexists(folder):
        raise Problem(f"{folder} is there already; name a folder that isn't", 2)
    with whole_folder(folder) as beside:
        for file, text in packed.names.tables.items():
            if file == PROCESSES:
                text = moved_text(text, packed.names, now)
            write_whole(os.path.join(beside, file), [text.encode()])


def moved_text(text: str, names: Names, now: list[int]) -> str:
    """The table of processes with the machines of a list. All other cells stay."""
    header, *rows = [row.cells for row in rows_of(text)]
    at, name_at = header.index("machine"), header.index("process")
    machines = {process: names.machines[machine] for process, machine in zip(names.processes, now)}
    for row in rows:
        row[at] = machines[row[name_at]]
    return table_text(header, rows, "\r\n" if "\r\n" in text else "\n")
