"""What a picture of a run needs of its report."""
from array import array

from .problems import Problem
from .reports import HEAD, opened

DONE, LATE = 16, 32


class RunReport:
    """A report, with what a picture needs of its journal: a byte for each entry, and where the cost changes."""

    def __init__(self, name: str) -> None:
        self.name, self.marks, self.places, self.costs = name, bytearray(), array("I"), array("d")
        self.start: int | None = None
        with opened(name) as report:
            head = report.head
            if head.costs.cost != sum(head.numbers[word] for word in HEAD[1:6]):
                raise Problem(f"{name}: line 1: the cost isn't the sum of its parts", 9)
            self.assignment, self.bound, self.least, self.best_at = head.assignment, head.bound, head.costs.cost, head.best_at
            if self.best_at == 0:
                self.start = self.least
            for entry in report.entries():
                self.marks.append(entry.worker | LATE * entry.is_late | DONE * (entry.cost is not None))
                if entry.cost is not None:
                    self.places.append(report.places + 1)
                    self.costs.append(entry.cost)
                elif self.start is None and not self.places and entry.cause == "rise":
                    self.start = int(entry.numbers.split()[0])
        self.workers = 1 + max((mark & 15 for mark in set(self.marks)), default=0)
