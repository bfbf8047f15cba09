"""Tables: files of comma-separated values whose first line names the columns."""
import csv
import io
import os
from collections.abc import Callable, Iterable, Iterator
from dataclasses import dataclass

from ..files import read_whole
from ..problems import Problem
from ..texts import counted
from .mistakes import Mistakes, Place

csv.field_size_limit(1 << 16)
SEPARATORS = {";": "semicolons", "\t": "tabs", "|": "bars"}
BYTE_ORDER_MARK = b"\xef\xbb\xbf"
UTF16 = b"\xff\xfe", b"\xfe\xff"
MOST_OPEN = 20  # open quotation marks of a table after which the rows are still read


@dataclass(frozen=True)
class Row:
    """A row: the number of its first line in the file, and its cells."""

    line: int
    cells: list[str]

    def cell(self, at: int | None) -> str:
        """The cell of a column; nothing if there is no such column."""
        return "" if at is None else self.cells[at]


class Table:
    """A table. `rows` are those that have a cell for each column; the others are `faulty`, and told as mistakes. Columns at the
    end that have neither a name nor a cell are passed over. If the table can't be read to its end, it isn't `whole`."""

    def __init__(self, file: str, text: str, mistakes: Mistakes) -> None:
        self.file, self.text, self.mistakes = file, text, mistakes
        self.columns: list[str] = []
        self.rows: list[Row] = []
        self.faulty: list[Row] = []
        self.header_line, self.whole = 1, True
        self.read()

    def read(self) -> None:
        separator = other_separator(self.text)
        if separator:
            self.stop(1, f"the columns are separated by {separator}; save the table with commas between them")
            return
        rows = rows_of(self.text, self.stop)
        first = next(rows, None)
        if first is None:
            if self.whole:
                self.stop(1, "the file is empty; its first line has to name the columns")
            return
        width = len(first.cells)
        named = max(at for at, name in enumerate(first.cells, 1) if name)
        self.header_line, self.columns = first.line, first.cells[:named]
        for at, name in enumerate(self.columns, 1):
            if not name:
                self.mistakes.add(Place(self.file, first.line, at), "this column has no name")
            elif name in self.columns[:at - 1]:
                self.mistakes.add(Place(self.file, first.line, at), f"two columns are named {name!r}")
        for row in rows:
            extra = next((at for at, cell in enumerate(row.cells[named:width], named) if cell), None)
            if extra is not None and len(row.cells) <= width:
                self.faulty.append(row)
                self.mistakes.add(Place(self.file, row.line, extra + 1), f"{row.cells[extra]!r} stands in a column without a name")
            elif named <= len(row.cells) <= width:
                self.rows.append(Row(row.line, row.cells[:named]))
            else:
                self.faulty.append(row)
                self.mistakes.add(Place(self.file, row.line), self.miscounted(row.cells))

    def stop(self, line: int, why: str) -> None:
        """Tells why the table can't be read from a line on."""
        self.whole = False
        self.mistakes.add(Place(self.file, line), why)

    def miscounted(self, cells: list[str]) -> str:
        """What is wrong with a row that has too few or too many cells."""
        lacking, extra = self.columns[len(cells):], cells[len(self.columns):]
        which = f"none for {', '.join(map(repr, lacking))}" if lacking else f"{', '.join(map(repr, extra))} in none"
        return f"{counted(len(cells), 'cell')} in a table of {counted(len(self.columns), 'column')}: {which}"

    def needs(self, *names: str, why: str = "") -> None:
        """Tells those columns that are missing."""
        for name in dict.fromkeys(names):
            if self.columns and name not in self.columns:
                self.mistakes.add(Place(self.file, self.header_line), f"no column {name!r}{why}"
                                  f"{self.mistakes.nearest(name, self.columns)}")

    def knows(self, names: set[str]) -> None:
        """Tells those columns that have no meaning."""
        for at, name in enumerate(self.columns, 1):
            if name and name not in names:
                self.mistakes.add(Place(self.file, self.header_line, at), f"column {name!r} means nothing here"
                                  f"{self.mistakes.nearest(name, list(names))}; if it is to be passed over, name it in "
                                  "`ignored` of settings.toml")

    def at(self, name: str) -> int | None:
        """The number of a column, or None."""
        return self.columns.index(name) if name in self.columns else None

    def faulty_names(self, at: int) -> set[str] | None:
        """The cells of a column in those rows that were told, so that nobody is told that they aren't there. None if the table
        isn't whole, so that any name may be there."""
        return {row.cells[at] for row in self.faulty if at < len(row.cells)} if self.whole else None

    def place(self, row: Row, at: int | None) -> Place:
        return Place(self.file, row.line) if at is None else Place(self.file, row.line, at + 1, self.columns[at])


def other_separator(text: str) -> str | None:
    """What separates the columns instead of commas, in words; None if it is commas, or nothing does."""
    first = text.lstrip().split("\n", 1)[0]
    return next((SEPARATORS[one] for one in SEPARATORS if one in first), None) if "," not in first else None


def rows_of(text: str, tell: Callable[[int, str], None] = lambda line, why: None) -> Iterator[Row]:
    """The rows of a text that aren't blank, without the blanks around cells. What can't be read is told, with its line; the lines
    after that are read as if it weren't there."""
    lines = list(io.StringIO(text, newline=""))
    begin = faults = 0
    while begin < len(lines) and faults <= MOST_OPEN:
        reader, line = csv.reader(lines[begin:], strict=True), begin + 1
        try:
            for cells in reader:
                if any(cell.strip() for cell in cells):
                    yield Row(line, [cell.strip() for cell in cells])
                line = begin + reader.line_num + 1
            return
        except csv.Error as fault:
            is_open = "end of data" in str(fault) or begin + reader.line_num > line
            tell(line, "a quotation mark is not closed" if is_open else str(fault))
            begin, faults = line, faults + 1


def read_text(folder: str, file: str, mistakes: Mistakes, is_needed: bool = True) -> str | None:
    """The text of a file of a folder, without a byte order mark; None if it isn't there or can't be read, which is told."""
    name = os.path.join(folder, file)
    if not os.path.lexists(name):
        if is_needed:
            mistakes.unreadable(Place(file), "there is no such file")
        return None
    try:
        read = read_whole(name, is_begun=lambda piece: not piece.startswith(UTF16))
    except Problem as problem:
        mistakes.unreadable(Place(file), problem.line.removeprefix(f"{name}: ").removeprefix(f"{name} "))
        return None
    if read.startswith(UTF16):
        mistakes.add(Place(file, 1, 1), "the file is written in UTF-16; save it as UTF-8")
        return None
    read = read.removeprefix(BYTE_ORDER_MARK)
    try:
        return read.decode()
    except UnicodeDecodeError as fault:
        *lines, start = read[:fault.start].decode().split("\n")
        column = len(start) + 1 if file.endswith(".toml") else start.count(",") + 1
        mistakes.add(Place(file, len(lines) + 1, column), f"character {len(start) + 1} of the line is the byte "
                     f"{read[fault.start]:#04x}, which is no UTF-8; save the file as UTF-8")
        return None


def table_text(columns: Iterable[str], rows: Iterable[Iterable[object]], end: str = "\n") -> str:
    """The text of a table."""
    written = io.StringIO(newline="")
    writer = csv.writer(written, lineterminator=end)
    writer.writerow(columns)
    writer.writerows(rows)
    return written.getvalue()
