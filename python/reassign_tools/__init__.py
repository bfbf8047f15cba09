"""Tools beside the program `reassign`, and calls for scripts and notebooks.

    >>> from reassign_tools import Model, check, solve, verify
    >>> check("examples/sample/model", [0, 3, 0], [0, 2, 1]).cost
    2411

Whatever can't be done raises Problem, with a line that says why and the status with which a tool would end. An argument that
can't be one is a TypeError or a ValueError, which names it.
"""

import os


def _version() -> str:
    """The number in the file VERSION, which stands in the package in a wheel, and else where python/ stands."""
    here = os.path.dirname(os.path.realpath(__file__))
    beside = os.path.join(here, "VERSION")
    with open(beside if os.path.exists(beside) else os.path.join(here, "..", "..", "VERSION"), encoding="ascii") as file:
        return file.read().strip()


__version__ = _version()

from .calls import Bound, Repaired, Solved, bound, check, evacuate, improve, moves, plot, race, repair, solve, summary, verify
from .evacuate import Evacuated
from .fleets.fleet import Fleet
from .improve import Improved
from .machine_uses import ResourceSum
from .models import Model
from .moves import MoveList, Point
from .names import Names
from .problems import Problem
from .program import Costs
from .summary import Full, Summary, WorkerSum
from .waves import Move, Stuck, Wave

__all__ = ["Bound", "Costs", "Evacuated", "Fleet", "Full", "Improved", "Model", "Move", "MoveList", "Names", "Point",
           "Problem", "Repaired", "ResourceSum", "Solved", "Stuck", "Summary", "Wave", "WorkerSum", "bound", "check",
           "evacuate", "improve", "moves", "plot", "race", "repair", "solve", "summary", "verify"]
