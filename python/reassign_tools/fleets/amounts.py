"""Amounts as people write them: 16, 0.5, 500m, 64Gi, 1.5G."""
import re
from fractions import Fraction
from functools import lru_cache

from ..files import LARGEST

SUFFIXES = {
    "n": Fraction(1, 10**9), "u": Fraction(1, 10**6), "m": Fraction(1, 1000), "": Fraction(1),
    **{name: Fraction(1000**power) for power, name in enumerate(("k", "M", "G", "T", "P", "E"), 1)},
    **{name: Fraction(1024**power) for power, name in enumerate(("Ki", "Mi", "Gi", "Ti", "Pi", "Ei"), 1)},
}
BINARY = [name for name in SUFFIXES if name.endswith("i")]
FORM = re.compile(r"([0-9]{1,30}(?:\.[0-9]{0,30})?|\.[0-9]{1,30})(?:[eE]([+-]?[0-9]{1,2}))?([a-zA-Z]*)")
FORMS = "16, 0.5, 500m, 64Gi or 1.5G"


class NoAmount(ValueError):
    """A text that is no amount. Its text says why, and what may have been meant."""


@lru_cache(maxsize=1 << 16)
def amount(text: str) -> Fraction:
    """The amount that a text says, as a fraction. Raises NoAmount.

    >>> amount("500m")
    Fraction(1, 2)
    """
    found = FORM.fullmatch(text)
    if not found or found[3] not in SUFFIXES:
        raise NoAmount(f"{text!r} is no amount ({meant(text) or f'write it as {FORMS}'})")
    return Fraction(found[1]) * Fraction(10) ** int(found[2] or 0) * SUFFIXES[found[3]]


def whole_number(text: str) -> int | None:
    """The number of a model that a text says; None if it says none."""
    digits = text.lstrip("0") or "0"
    return int(digits) if text.isascii() and text.isdigit() and len(digits) <= 10 and int(digits) <= LARGEST else None


def meant(text: str) -> str:
    """A question that offers the amount that was meant, or nothing."""
    plain = re.sub(r"[\s_']", "", text)
    found = re.fullmatch(r"([0-9]+(?:[.,][0-9]+)*)([a-zA-Z]*)", plain)
    if not found:
        return ""
    number, suffix = found[1], found[2].removesuffix("B").removesuffix("b")
    if "," in number:
        is_grouped = re.fullmatch(r"[0-9]{1,3}(,[0-9]{3})+(\.[0-9]+)?", number)
        number = number.replace(",", "" if is_grouped else ".")
    cased = {name.lower(): name for name in SUFFIXES}
    suffix = suffix if suffix in SUFFIXES else cased.get(suffix.lower())
    if suffix is None or not FORM.fullmatch(number + suffix) or number + suffix == text:
        return ""
    return f"is it '{number}{suffix}'?"


def suffix_of(text: str) -> str:
    """The suffix of an amount."""
    found = FORM.fullmatch(text)
    return found[3] if found else ""


def in_units(value: Fraction, unit: Fraction, up: bool) -> int:
    """How many of a unit an amount is, rounded up or down."""
    count = value / unit
    return -(-count.numerator // count.denominator) if up else count.numerator // count.denominator


def loses_much(value: Fraction, unit: Fraction, count: int) -> bool:
    """Whether rounding takes more than a hundredth of an amount."""
    return abs(count * unit - value) * 100 > value


def amount_text(value: Fraction) -> str:
    """An amount as people write it, without loss: from a million on with the largest suffix that leaves it whole.

    >>> amount_text(Fraction(65536 * 2**20))
    '64Gi'
    """
    if value.denominator == 1:
        for name in (*reversed(BINARY), "E", "P", "T", "G", "M"):
            if value >= 10**6 and value % SUFFIXES[name] == 0:
                return f"{value // SUFFIXES[name]}{name}"
        return str(value)
    for name in ("m", "u", "n"):
        count = value / SUFFIXES[name]
        if count.denominator == 1:
            return f"{count}{name}"
    return f"{float(value):.6g}"
