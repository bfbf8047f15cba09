"""Tables and settings that scripts make of dicts, as the texts of their files."""
import json
from collections.abc import Iterable, Mapping
from decimal import Decimal
from fractions import Fraction
from typing import Any

from ..problems import WrongValue
from .amounts import amount_text
from .tables import table_text

Rows = Iterable[Mapping[str, object]]
SECTIONS = ("resource", "balance", "ways", "weights")
KINDS = {Mapping: "a dict", str: "a text"}


def of_type(name: str, value: object, kind: Any) -> Any:
    """A value that has to be of a type."""
    if not isinstance(value, kind):
        raise TypeError(f"{name} has to be {KINDS[kind]}, and is of type {type(value).__name__}")
    return value


def cell_text(name: str, value: object) -> str:
    """A cell as a table has it."""
    if value is None:
        return ""
    if isinstance(value, (list, tuple)):
        return ";".join(of_type(f"{name}[{at}]", one, str) for at, one in enumerate(value))
    if isinstance(value, bool) or not isinstance(value, (str, int, float, Decimal, Fraction)):
        raise TypeError(f"{name} has to be a text, a number or None, and is of type {type(value).__name__}")
    if isinstance(value, str):
        return value
    if value != value or abs(value) == float("inf") or value < 0:
        raise WrongValue(f"{name} is {value}, and has to be an amount")
    if isinstance(value, int):
        return str(value)
    exact = Fraction(str(value))
    return amount_text(exact) if exact.denominator == 1 or 10**9 % exact.denominator == 0 else f"{Decimal(repr(float(exact))):f}"


def rows_text(name: str, rows: Rows) -> str:
    """The text of a table whose rows are dicts. Its columns are their keys, in the order in which they come."""
    if isinstance(rows, (str, bytes, Mapping)) or not isinstance(rows, Iterable):
        raise TypeError(f"{name} has to be a list of dicts, and is of type {type(rows).__name__}")
    read = [of_type(f"{name}[{at}]", row, Mapping) for at, row in enumerate(rows)]
    columns = list(dict.fromkeys(of_type(f"{name}[{at}]: a key", key, str) for at, row in enumerate(read) for key in row))
    return table_text(columns, [[cell_text(f"{name}[{at}][{column!r}]", row.get(column)) for column in columns]
                                for at, row in enumerate(read)])


def toml_text(settings: Mapping[str, object]) -> str:
    """The text of settings.toml: what belongs to no section, and then the sections."""
    lines = toml_lines("settings", {word: value for word, value in settings.items() if word not in SECTIONS})
    for word in filter(settings.__contains__, SECTIONS):
        several = settings[word]
        for at, section in enumerate(several) if isinstance(several, (list, tuple)) else [(None, several)]:
            where, line = (f"settings[{word!r}]", f"[{word}]") if at is None else (f"settings[{word!r}][{at}]", f"[[{word}]]")
            lines += ["", line, *toml_lines(where, of_type(where, section, Mapping))]
    return "\n".join(lines) + "\n"


def toml_lines(name: str, words: Mapping[str, object]) -> list[str]:
    return [f"{json.dumps(of_type(f'{name}: a key', word, str))} = {toml_value(f'{name}[{word!r}]', value)}"
            for word, value in words.items()]


def toml_value(name: str, value: object) -> str:
    if isinstance(value, (str, bool, int)):
        return json.dumps(value, ensure_ascii=False).replace("\x7f", "\\u007f")
    if isinstance(value, (float, Decimal)):
        return repr(float(value))
    if isinstance(value, (list, tuple)):
        return f"[{', '.join(toml_value(f'{name}[{at}]', one) for at, one in enumerate(value))}]"
    raise TypeError(f"{name} has to be a text, a number, True, False or a list, and is of type {type(value).__name__}")
