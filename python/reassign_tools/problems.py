"""What ends a tool before its aim."""
import signal
from collections.abc import Callable, Iterator
from contextlib import contextmanager


class Problem(Exception):
    """A line for standard error, and the status with which a tool ends (docs/GUIDE.md, "In scripts").

    1    the tool has a fault, or the program is of another version
    2    the words are no call of the tool
    3    a file can't be read, or the program isn't there
    4, 5, 6, 8, 10    what `reassign` says of the model, of a list, of a broken rule, of memory, of a closed list
    7    an output couldn't be written
    9    a report isn't one, or isn't one of these files
    11   the tool ended short of its aim; its files are written whole
    12   what differs between two fleets can't be written as edits
    """

    def __init__(self, line: str, status: int = 3) -> None:
        super().__init__(line)
        self.line, self.status = line, status

    def __str__(self) -> str:
        return self.line


class WrongValue(Problem, ValueError):
    """An argument of a call that isn't possible: a ValueError, and a problem with status 2."""

    def __init__(self, line: str) -> None:
        super().__init__(line, 2)


class ProblemWithLines(Problem):
    """A problem of which there is more to tell: `lines`, which come before its own."""

    def __init__(self, lines: list[str], line: str, status: int) -> None:
        super().__init__(line, status)
        self.lines = lines


@contextmanager
def telling(tell: Callable[[str], str] | None) -> Iterator[None]:
    """A problem that comes up in here goes on with the line that `tell`, if there is one, makes of its own."""
    try:
        yield
    except Problem as problem:
        problem.line = tell(problem.line) if tell else problem.line
        raise


class Stopped(KeyboardInterrupt):
    """Ctrl-C, or the system's call to end, by its signal. A notebook, in which no tool runs, gets its KeyboardInterrupt
    instead."""

    def __init__(self, number: int = signal.SIGINT) -> None:
        super().__init__("stopped")
        self.signal = number
