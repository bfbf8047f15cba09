"""The closed machines of a call: those of the list that is given, and those of the fleet to which a model belongs."""
import os
from argparse import ArgumentParser
from collections.abc import Callable
from typing import Protocol

from .files import InRoom, is_same, list_text, read_closed, read_whole, write_whole
from .names import Names
from .running import say
from .texts import some

MOST_PIPED = 1 << 22  # bytes of a closed list that comes through a pipe
ONLY = "take the closed list that is given alone, though MODEL lies in a folder of `named pack` that has one too"


class HasClosed(Protocol):
    """Options with a closed list, or none."""

    @property
    def closed(self) -> str | None: ...


class HasFleet(Protocol):
    """Options with a model, whose fleet may have closed machines too."""

    @property
    def model(self) -> str: ...
    @property
    def only(self) -> bool: ...


def add_only(words: ArgumentParser) -> None:
    """The option that passes over the closed list of a fleet."""
    words.add_argument("--only", action="store_true", help=ONLY)


def given_list(words: HasClosed, names: Names | None, room: InRoom) -> str | None:
    """The name of the closed list that the words name, as the program reads it, or None. It is read several times, so what comes
    through a pipe is kept in the room first."""
    name = words.closed
    if name and os.path.exists(name) and not os.path.isfile(name) and not os.path.isdir(name):
        write_whole(room("given"), [read_whole(name, MOST_PIPED, 10)])
        name = room("given")
    return names.closed_file(name, room) if names else name


def fleet_closed(model: str) -> str | None:
    """The closed list of the fleet whose model a file is: the one beside it, if `named pack` wrote the folder. Else None."""
    folder = os.path.dirname(model)
    closed = os.path.join(folder, "closed")
    return closed if os.path.isfile(os.path.join(folder, "names.json")) and os.path.isfile(closed) else None


def with_fleet(words: HasFleet, closed: str | None, names: Names, room: InRoom,
               tell: Callable[[str], object] = say) -> str | None:
    """The name of the closed list that holds: the one that is given, by its name or None, with the machines that the fleet of
    the model has closed too, which is told; or the given one alone, if the words ask for that. `names` are those of the
    machines."""
    fleet = None if words.only else fleet_closed(words.model)
    if not fleet or closed and is_same(fleet, closed):
        return closed
    given = read_closed(closed, len(names.machines)) if closed else set()
    more = read_closed(fleet, len(names.machines)) - given
    if not more:
        return closed
    tell(f"closed too, as {fleet} says: {some([names.machines[at] for at in sorted(more)])}; --only passes over that list")
    write_whole(room("closed_too"), [list_text(sorted(given | more))])
    return room("closed_too")
