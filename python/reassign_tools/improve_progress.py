"""How far `improve` is, on standard error."""
import sys
import threading
from typing import TYPE_CHECKING

from .running import say
from .texts import percent

if TYPE_CHECKING:
    from .improve import Search

REDRAWN, TENTHS = 0.5, 10  # seconds between two lines on a terminal; else so many lines come


class Progress:
    """Tells how far a search is as long as it stands in a `with`: on a terminal in a line that is redrawn, else a line each tenth."""

    def __init__(self, search: "Search") -> None:
        self.search, self.is_over, self.told = search, threading.Event(), 0
        self.is_terminal = sys.stderr.isatty()
        self.thread = threading.Thread(target=self.work, daemon=True)

    def __enter__(self) -> None:
        self.thread.start()

    def __exit__(self, *_: object) -> None:
        self.is_over.set()
        self.thread.join(1.0)
        if self.is_terminal:
            self.write("\r\x1b[K")

    def work(self) -> None:
        while not self.is_over.wait(REDRAWN if self.is_terminal else 0.05):
            part, line = self.line()
            if self.is_terminal:
                self.write(f"\r{line}\x1b[K")
            elif int(TENTHS * part) > self.told:
                self.told = int(TENTHS * part)
                say(line)

    def write(self, text: str) -> None:
        try:
            print(text, end="", file=sys.stderr, flush=True)
        except OSError:
            pass

    def line(self) -> tuple[float, str]:
        """The part of the search that is over, and what is told of it."""
        search, spent, tries = self.search, self.search.passed(), self.search.options.tries
        part = search.tries / tries if tries else min(1.0, spent / search.seconds)
        gap = search.gap_left()
        told = [f"{spent:.1f} s", f"cost {search.cost:,}"]
        told += [f"{percent(gap)} of the gap left"] if gap is not None else []
        told += [f"{search.rate / 1e6:.2f} M tries a second, heat {search.heat:,}"] if search.heat is not None else []
        told += [f"{search.tries:,} of {tries:,} tries" if tries else f"{max(0.0, search.seconds - spent):.1f} s to go"]
        return part, ", ".join(told)
