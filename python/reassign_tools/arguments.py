"""The arguments of calls: what has another type, or isn't possible, is a TypeError or a ValueError that names the argument."""
import operator
import os
from collections.abc import Iterable, Mapping, Set
from typing import SupportsIndex

from .files import LARGEST, MOST_NUMBERS, Room, list_text, write_whole
from .models import Model
from .names import Names
from .problems import Problem, WrongValue
from .words import is_text

File = str | os.PathLike[str]


MachineList = File | Iterable[SupportsIndex]  # the name of a file, or the machine of each process
Closed = File | Iterable[SupportsIndex] | Set[int]


def wrong_type(name: str, value: object, wanted: str) -> TypeError:
    return TypeError(f"{name} has to be {wanted}, and is of type {type(value).__name__}")


def whole(name: str, value: object, least: int = 0, most: int = LARGEST) -> int:
    """A whole number from least to most. A bool is none, and a float is none."""
    try:
        if isinstance(value, bool):
            raise TypeError
        number = operator.index(value)  # type: ignore[arg-type]
    except TypeError:
        raise wrong_type(name, value, "a whole number") from None
    if not least <= number <= most:
        raise WrongValue(f"{name} is {number}, and has to be a number from {least:,} to {most:,}")
    return number


def whole_if(name: str, value: object, least: int = 0, most: int = LARGEST) -> int | None:
    """A whole number, or None."""
    return None if value is None else whole(name, value, least, most)


def flag(name: str, value: object) -> bool:
    if not isinstance(value, bool):
        raise wrong_type(name, value, "True or False")
    return value


def text_if(name: str, value: object) -> str | None:
    """A text, or None."""
    if value is not None and not isinstance(value, str):
        raise wrong_type(name, value, "a text")
    return value


def positive(name: str, value: object) -> float:
    """A number above 0, which needn't be whole."""
    if isinstance(value, bool) or not isinstance(value, (int, float)):
        raise wrong_type(name, value, "a number")
    if not 0 < value < float("inf"):
        raise WrongValue(f"{name} is {value}, and has to be above 0")
    return float(value)


def file_of(name: str, value: object) -> str:
    """The name of a file, as the program takes it."""
    found = os.fspath(value) if isinstance(value, os.PathLike) else value
    if not isinstance(found, str):
        raise wrong_type(name, value, "the name of a file")
    if not found or "\0" in found or not is_text(found):
        raise WrongValue(f"{name}: {found!r} is no name of a file")
    return os.path.join(".", found) if found.startswith("-") else found


def file_if(name: str, value: object) -> str | None:
    return None if value is None else file_of(name, value)


def items_of(name: str, value: object, wanted: str) -> list[object]:
    """The items of a list, a tuple, an array: of something whose items have an order."""
    if isinstance(value, (str, bytes, bytearray, Mapping, Set)) or not isinstance(value, Iterable):
        raise wrong_type(name, value, wanted)
    return list(value)


def machines_of(name: str, value: object) -> list[int]:
    """The machines of a list."""
    numbers = items_of(name, value, "the name of a file, or a list of machine numbers")
    if len(numbers) > MOST_NUMBERS:
        raise WrongValue(f"{name} has {len(numbers):,} numbers, and at most {MOST_NUMBERS:,} are possible")
    return [whole(f"{name}[{at}]", one) for at, one in enumerate(numbers)]


class Given:
    """What a call was given, as files, as long as it runs: those that it doesn't name itself are in `room`, and problems tell
    them by the names of the arguments."""

    def __enter__(self) -> "Given":
        self.place = Room()
        self.room = self.place.__enter__()
        return self

    def __exit__(self, _: object, fault: BaseException | None, *__: object) -> None:
        self.place.__exit__()
        if isinstance(fault, Problem):
            fault.line = self.tidy(fault.line)

    def tidy(self, text: str) -> str:
        """A text in which the files of the room have the names of their arguments."""
        return text.replace(self.room(""), "")

    def model(self, value: object, name: str = "model") -> str:
        """The file of a model."""
        if not isinstance(value, Model):
            if not isinstance(value, (str, os.PathLike)):
                raise wrong_type(name, value, "the name of a file, or a Model")
            return file_of(name, value)
        write_whole(self.room(name), value.pieces())
        return self.room(name)

    def list(self, name: str, value: object) -> str:
        """The file of a list."""
        if isinstance(value, (str, os.PathLike)):
            return file_of(name, value)
        write_whole(self.room(name), [list_text(machines_of(name, value))])
        return self.room(name)

    def title_of(self, value: object) -> str | None:
        """The title of a picture of a list that has no name, or None."""
        return None if isinstance(value, (str, os.PathLike)) else "the machines, before and after"

    def closed(self, value: object) -> str | None:
        """The file of a closed list, or None. It may be a set too."""
        return None if value is None else self.list("closed", sorted(value) if isinstance(value, Set) else value)

    def names(self, value: object) -> str | None:
        """The file of names, or None."""
        if not isinstance(value, Names):
            return file_if("names", value)
        write_whole(self.room("names"), [value.text().encode()])
        return self.room("names")

    def names_of(self, value: object, model: str) -> Names | None:
        """The names of a model, or None."""
        name = self.names(value)
        return Names.read(name, model) if name else None
