"""Files: whole ones to write, lists of numbers to read, a folder for a while."""
import fcntl
import os
import re
import shutil
import tempfile
from collections.abc import Callable, Iterable, Iterator
from typing import BinaryIO, TextIO

from .problems import Problem

PIECE = 1 << 20
LARGEST = 4294967295  # the largest number that a file may have
MOST_BYTES = 536_870_912  # of a file that the program reads
MOST_NUMBERS = 50_000  # of an assignment
MOST_JSON = 1 << 30  # bytes of a JSON
InRoom = Callable[[str], str]  # gives a file of a room its whole name
LONG = 4000  # digits of a number of which the last ones aren't there yet
ZEROS = re.compile(b"0*")  # in front of a number: many of them are found six times as fast as by `lstrip`


def is_same(one: str, other: str) -> bool:
    """Whether two names stand for one file, through links too, also if it isn't there yet."""
    one, other = os.path.realpath(one), os.path.realpath(other)
    try:
        return os.path.samefile(one, other)
    except OSError:
        pass
    try:
        return os.path.basename(one) == os.path.basename(other) and os.path.samefile(os.path.dirname(one), os.path.dirname(other))
    except OSError:
        return False


def target(name: str, *others: str | None) -> str:
    """The file that a tool will write, checked before the work begins: a plain file, or none yet, in a folder that takes it,
    and none of the others that are named, which it would destroy. (An other one may be None.)"""
    for other in filter(None, others):
        if is_same(name, other):
            raise Problem(f"{name} and {other} are one file, which would be lost", 2)
    name = os.path.realpath(name)
    if os.path.exists(name) and not os.path.isfile(name):
        raise Problem(f"{name} is no plain file, so nothing is written there", 2)
    folder = os.path.dirname(name)
    if not os.path.isdir(folder) or not os.access(folder, os.W_OK):
        raise Problem(f"{folder} is no folder that can be written to", 7)
    return name


_for_a_while: set[str] = set()  # the files and folders that are there for a while


def for_a_while(name: str) -> str:
    """A file or a folder is going to be there for a while: if the tool ends before, it is removed then."""
    _for_a_while.add(name)
    return name


def is_gone(name: str) -> None:
    """Such a file or folder isn't there any more, or stays."""
    _for_a_while.discard(name)


def remove_what_is_left() -> None:
    """Removes whatever was to be there for a while, as a tool does when it ends."""
    for name in list(_for_a_while):
        remove(name)


def remove(name: str) -> None:
    """Removes a file, or a folder with all that is in it, if it is there."""
    try:
        os.unlink(name)
    except IsADirectoryError:
        shutil.rmtree(name, ignore_errors=True)
    except OSError:
        pass
    is_gone(name)


def write_whole(name: str, pieces: Iterable[bytes]) -> None:
    """Writes a file beside its place and then renames it, so that only a whole one is ever there."""
    name = os.path.realpath(name)
    beside = for_a_while(os.path.join(os.path.dirname(name), f".{os.path.basename(name)[:200]}.{os.getpid()}"))
    try:
        with open(beside, "wb") as file:
            for piece in pieces:
                file.write(piece)
            file.flush()
            os.fsync(file.fileno())
        os.replace(beside, name)
    except OSError as fault:
        raise Problem(f"write fault: {name}: {fault.strerror}", 7) from None
    finally:
        remove(beside)


def lock(name: str, what: str) -> TextIO:
    """Locks a file, which is made if it isn't there, until what this answers is closed. Raises Problem with status 7 if another
    call has locked it, since both would write what it stands for."""
    try:
        file = open(name, "a+", encoding="utf-8")
    except OSError as fault:
        raise Problem(f"write fault: {name}: {fault.strerror}", 7) from None
    try:
        fcntl.flock(file, fcntl.LOCK_EX | fcntl.LOCK_NB)
    except OSError:
        file.seek(0)
        raise Problem(f"{what} is being written by another call, which is process {file.read(20).strip() or 'unknown'}", 7) from None
    file.truncate(0)
    file.write(f"{os.getpid()}\n")
    file.flush()
    return file


class Room:
    """A folder for what a tool needs for a while. It is locked as long as the tool runs, so what a killed one left can be told,
    and the next tool removes it."""

    PREFIX = "reassign-tools-"

    def __enter__(self) -> InRoom:
        try:
            remove_left(tempfile.gettempdir(), self.PREFIX)
            while not self.make():
                pass
        except OSError as fault:
            raise Problem(f"write fault: {fault.strerror}", 7) from None
        return lambda name: os.path.join(self.folder, name)

    def make(self) -> bool:
        """Makes the folder and locks it. Answers whether it is still there then: another tool may have taken it for a left one
        in between."""
        self.folder = for_a_while(os.path.join(tempfile.gettempdir(), f"{self.PREFIX}{os.urandom(8).hex()}"))
        os.mkdir(self.folder, 0o700)
        try:
            self.lock = os.open(self.folder, os.O_RDONLY)
            fcntl.flock(self.lock, fcntl.LOCK_EX)
        except FileNotFoundError:
            return False
        if os.path.exists(self.folder):
            return True
        os.close(self.lock)
        return False

    def __exit__(self, *_: object) -> None:
        remove(self.folder)
        os.close(self.lock)


def remove_left(place: str, prefix: str) -> None:
    """Removes the folders of tools that were killed: those of this user that nobody has locked."""
    for name in os.listdir(place):
        if name.startswith(prefix):
            remove_unlocked(os.path.join(place, name))


def remove_unlocked(folder: str) -> None:
    try:
        at = os.open(folder, os.O_RDONLY | os.O_DIRECTORY | os.O_NOFOLLOW)
    except OSError:
        return
    try:
        if os.fstat(at).st_uid == os.geteuid():
            fcntl.flock(at, fcntl.LOCK_EX | fcntl.LOCK_NB)
            shutil.rmtree(folder, ignore_errors=True)
    except OSError:
        pass  # its tool runs, or another call removes it
    finally:
        os.close(at)


def number_of(word: bytes) -> int:
    """The number that a word of a file says, whatever its zeros are: Python takes no more than 4,300 digits at once."""
    return int(word) if len(word) < 4000 else int(word.lstrip(b"0")[:4000] or b"0")


def pieces_of(file: BinaryIO, name: str, most: int = MOST_BYTES, status: int = 3) -> Iterator[bytes]:
    """The pieces of a file that is open, which has no more bytes than `most`."""
    size = 0
    try:
        while piece := file.read(PIECE):
            size += len(piece)
            if size > most:
                raise Problem(f"{name} has more than {most:,} bytes", status)
            yield piece
    except OSError as fault:
        raise Problem(f"{name}: {fault.strerror}") from None


def read_whole(name: str, most: int = MOST_BYTES, status: int = 3,
               is_begun: Callable[[bytes], bool] = lambda piece: True) -> bytes:
    """The bytes of a file, which are no more than `most`, and no zeros as in a device. Its first piece is to be one with which
    such a file may begin; else that piece alone is answered."""
    try:
        with open(name, "rb", buffering=0) as file:
            read = bytearray()
            for piece in pieces_of(file, name, most, status):
                read += piece
                if len(read) == len(piece) and not is_begun(piece):
                    break
                if b"\0" in piece:
                    raise Problem(f"{name} is no text: it has the byte 0", status)
            return bytes(read)
    except OSError as fault:
        raise Problem(f"{name}: {fault.strerror}") from None


class Numbers:
    """The numbers of a file, one after another, in pieces. What isn't one ends the tool with this status."""

    def __init__(self, name: str, status: int) -> None:
        self.name, self.status, self.at, self.cut = name, status, 0, b""
        self.words: list[bytes] = []
        try:
            self.pieces = pieces_of(open(name, "rb", buffering=0), name, status=status)
        except OSError as fault:
            raise Problem(f"{name}: {fault.strerror}") from None

    def wrong(self, why: str) -> Problem:
        return Problem(f"{self.name} {why}", self.status)

    def fill(self) -> bool:
        """Takes in one more piece. Answers whether there was one."""
        piece = next(self.pieces, b"")
        if piece.translate(None, b"0123456789 \t\r\n"):
            raise self.wrong("has something that is no number")
        more = (self.cut + piece).split()
        self.cut = more.pop() if more and piece and piece[-1:] not in b" \t\r\n" else b""
        if len(self.cut) > LONG:
            zeros = ZEROS.match(self.cut, 0, len(self.cut) - 1)
            self.cut = self.cut[zeros.end() if zeros else 0:-1][:LONG] + self.cut[-1:]
        self.words, self.at = self.words[self.at:] + more, 0
        return bool(piece)

    def next_words(self, count: int) -> list[bytes]:
        """The next words, as they stand."""
        while len(self.words) - self.at < count:
            if not self.fill() and len(self.words) < count:
                raise self.wrong("ends too early")
        self.at += count
        return self.words[self.at - count:self.at]

    def numbers_of(self, words: list[bytes]) -> list[int]:
        """The numbers that words say, none of which is too large."""
        try:
            numbers = list(map(int, words))
        except ValueError:
            numbers = list(map(number_of, words))
        if numbers and max(numbers) > LARGEST:
            raise self.wrong(f"has a number above {LARGEST:,}")
        return numbers

    def take(self, count: int) -> list[int]:
        return self.numbers_of(self.next_words(count))

    def one(self) -> int:
        return self.take(1)[0]

    def count(self, what: str, most: int, least: int = 0) -> int:
        """A number that says how many there are of something."""
        count = self.one()
        if not least <= count <= most:
            raise self.wrong(f"has {count:,} {what}; possible are {least:,} to {most:,}")
        return count

    def rest(self) -> Iterator[list[int]]:
        """The numbers that are left, in lists of some."""
        while self.fill() or self.words:
            words, self.words = self.words, []
            yield self.numbers_of(words)


def read_list(name: str, status: int = 5) -> list[int]:
    """The numbers of an assignment."""
    numbers = Numbers(name, status)
    found: list[int] = []
    for some in numbers.rest():
        found += some
        if len(found) > MOST_NUMBERS:
            raise numbers.wrong(f"has more than {MOST_NUMBERS:,} numbers")
    return found


def read_closed(name: str, machines: int) -> set[int]:
    """The machines of a closed list, of which a model has so many, by their numbers."""
    closed: set[int] = set()
    for some in Numbers(name, 10).rest():
        closed.update(some)
        if max(closed, default=0) >= machines:
            raise Problem(f"{name}: no machine {max(closed)}", 10)
    return closed


def list_text(numbers: Iterable[int]) -> bytes:
    return (" ".join(map(str, numbers)) + "\n").encode()
