"""Words with numbers, and how names are printed."""
import io
import sys
from collections.abc import Sequence


def counted(count: int, word: str, several: str = "") -> str:
    """A number with its word: 1 rule, 2 rules."""
    return f"{count:,} {word if count == 1 else several or f'{word}s'}"


def some(names: Sequence[str], most: int = 5) -> str:
    """The first of some names, and how many more there are."""
    return ", ".join(names[:most]) + (f" and {len(names) - most:,} more" if len(names) > most else "")


def percent(share: float) -> str:
    """A share in per cents: 12.1 %."""
    return f"{100 * share:.1f} %"


def print_in_utf8() -> None:
    """Names are printed as they stand in tables and files of names, whatever the locale says."""
    for stream in (sys.stdout, sys.stderr):
        if isinstance(stream, io.TextIOWrapper):
            stream.reconfigure(encoding="utf-8", errors="surrogateescape")
