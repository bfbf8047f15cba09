"""A fleet as the files of the program: model, initial, closed, names.json."""
from __future__ import annotations

import hashlib
import os
from collections.abc import Iterable, Iterator, Sequence
from fractions import Fraction
from typing import TYPE_CHECKING

from ..files import LARGEST, for_a_while, list_text, remove, write_whole
from ..models import Model
from ..names import Names
from ..problems import Problem
from .amounts import amount_text
from .mistakes import Mistakes
from .way_tables import way_rows

if TYPE_CHECKING:
    from .fleet import Fleet

NAMES = "names.json"
FILES = ("model", "initial", "closed", NAMES)


def labels_of(names: Iterable[str]) -> tuple[list[int], list[str]]:
    """A number for each name, by the first use, and the names in this order."""
    numbers: dict[str, int] = {}
    return [numbers.setdefault(name, len(numbers)) for name in names], list(numbers)


def model_of(fleet: Fleet) -> Model:
    """The model of a fleet. Raises FleetMistakes if a balance asks for more than a model's number can say."""
    machines, services, processes, settings = fleet.machines, fleet.services, fleet.processes, fleet.settings
    weights = settings.weights
    return Model(
        transient=[int(one.transient) for one in fleet.resources],
        load_weights=[one.load_weight or 0 for one in fleet.resources],
        hoods=labels_of(one.neighbourhood for one in machines)[0],
        locations=labels_of(one.location for one in machines)[0],
        capacity=[one.capacity for one in machines],
        safety=[one.safety for one in machines],
        ways=way_rows(machines, settings.ways, fleet.way_pairs),
        spreads=[one.spread for one in services],
        needs=[one.depends_on for one in services],
        service=[one.service for one in processes],
        required=[one.requirement for one in processes],
        move_cost=[one.move_cost for one in processes],
        balances=balances_of(fleet),
        weights=[weights.process, weights.service, weights.machine],
    )


def balances_of(fleet: Fleet) -> list[Sequence[int]]:
    """The balance objectives as a model has them. An amount as the target becomes one of units, rounded to the nearest."""
    numbers = {one.name: at for at, one in enumerate(fleet.resources)}
    mistakes = Mistakes()
    balances: list[Sequence[int]] = []
    for at, one in enumerate(fleet.settings.balances):
        first, second = numbers[one.first], numbers[one.second]
        if isinstance(one.target, int):
            target = one.target
        else:
            exact = one.target * fleet.resources[first].unit / fleet.resources[second].unit
            target = round(exact)
            if abs(target - exact) * 100 > exact:
                place = fleet.settings.place("balance", at, "target")
                fleet.notes.append(f"{place.file}:{place.line}: {amount_text(one.target)} of {one.second} for each 1 of "
                                   f"{one.first} are {float(exact):.4g} units for each unit, rounded to {target}, which changes "
                                   "the target by more than a hundredth")
        if target > LARGEST:
            mistakes.add(fleet.settings.place("balance", at, "target"), f"the target is {target:,} units, and at most "
                         f"{LARGEST:,} are possible")
        balances.append((first, second, target, one.weight))
    mistakes.close()
    return balances


def names_of(fleet: Fleet, model_hash: str) -> Names:
    """The names of a fleet in the order of its model's numbers."""
    return Names(
        model_sha256=model_hash,
        resources=[one.name for one in fleet.resources],
        units=[one.unit for one in fleet.resources],
        machines=[one.name for one in fleet.machines],
        neighbourhoods=labels_of(one.neighbourhood for one in fleet.machines)[1],
        locations=labels_of(one.location for one in fleet.machines)[1],
        services=[one.name for one in fleet.services],
        processes=[one.name for one in fleet.processes],
        tables=fleet.texts,
        rules=[one.name for one in fleet.resources if one.rule],
    )


def pack(fleet: Fleet, folder: str) -> None:
    """Writes the files of a fleet into a folder, which is made if it isn't there. The names come last, so that those of an
    earlier fleet are refused as another model's if the last step is broken off."""
    digest = hashlib.sha256()
    model = fleet.model()

    def hashed() -> Iterator[bytes]:
        for piece in model.pieces():
            digest.update(piece)
            yield piece

    with whole_folder(folder) as beside:
        write_whole(os.path.join(beside, "model"), hashed())
        write_whole(os.path.join(beside, "initial"), [list_text(fleet.initial)])
        write_whole(os.path.join(beside, "closed"), [list_text(fleet.closed)])
        write_whole(os.path.join(beside, NAMES), [names_of(fleet, digest.hexdigest()).text().encode()])


class whole_folder:
    """A folder in which files are written, beside the place where they will stand: they are put there when all are whole, the
    names last. A folder that isn't there yet is then there with all of its files, or not at all."""

    def __init__(self, folder: str) -> None:
        self.folder = os.path.realpath(folder)
        self.is_new = not os.path.exists(self.folder)
        above, name = os.path.split(self.folder)
        self.beside = os.path.join(above if self.is_new else self.folder, f".{name}.{os.getpid()}")

    def __enter__(self) -> str:
        above = os.path.dirname(self.beside)
        if not self.is_new and not os.path.isdir(self.folder):
            raise Problem(f"{self.folder} is no folder", 2)
        if not os.path.isdir(above):
            raise Problem(f"{above} is no folder" if os.path.lexists(above) else f"there is no folder {above} to write into", 7)
        try:
            os.mkdir(for_a_while(self.beside))
        except OSError as fault:
            raise Problem(f"write fault: {self.folder}: {fault.strerror}", 7) from None
        return self.beside

    def __exit__(self, kind: object, *_: object) -> None:
        try:
            if kind is None and self.is_new:
                os.rename(self.beside, self.folder)
            elif kind is None:
                for name in sorted(os.listdir(self.beside), key=lambda name: (name == NAMES, name)):
                    os.replace(os.path.join(self.beside, name), os.path.join(self.folder, name))
        except OSError as fault:
            raise Problem(f"write fault: {self.folder}: {fault.strerror}", 7) from None
        finally:
            remove(self.beside)
