"""The words with which a tool is called."""
import argparse
import os
import re
from collections.abc import Callable, Iterable
from dataclasses import fields
from typing import IO, NoReturn, TypeVar

from . import __version__
from .problems import Problem

MOST_PROPOSALS = 1_000_000  # of a run
MOST_LOTS = 16
LARGEST_SEED = 2**64 - 1
T = TypeVar("T")


class ShowVersion(argparse.Action):
    """Unlike argparse's own it fails if the version can't be written."""

    def __call__(self, parser: argparse.ArgumentParser, *_: object) -> None:
        print(f"reassign-{parser.prog} {__version__}")
        parser.exit()


class Words(argparse.ArgumentParser):
    """The words of a call, which are refused in one line. The description is the tool's own text, as it stands."""

    def __init__(self, tool: str, text: str | None) -> None:
        super().__init__(prog=tool, description=text, formatter_class=argparse.RawDescriptionHelpFormatter, allow_abbrev=False)
        self.add_argument("--version", action=ShowVersion, nargs=0, help="show the version and end")

    def print_help(self, file: IO[str] | None = None) -> None:
        """Unlike argparse's own it fails if the text can't be written."""
        print(self.format_help(), end="", file=file)

    def error(self, message: str) -> NoReturn:
        raise Problem(f"{message}; {self.prog} --help shows how to call it", 2)

    def add_program(self) -> None:
        """The option that names the program."""
        self.add_argument("--program", metavar="FILE", type=any_file_name,
                          help="the program to call (else the environment's REASSIGN, else ./reassign of the repository, else "
                          "`reassign` beside the tool, or where commands are looked for)")


def filled(kind: type[T], words: argparse.Namespace) -> T:
    """The options of a kind, a dataclass, whose fields are named as the words."""
    return kind(**{one.name: getattr(words, one.name) for one in fields(kind)})


def look_at_run_words(option: str, words: Iterable[object]) -> None:
    """Refuses words that the program doesn't take behind the names of its files, and names the wrong one: the option's own text
    of how to call it names none. They are `--slack N`, `--closed FILE`, `--draws 1|2`, and lots."""
    def wrong(word: str, why: str) -> Problem:
        return Problem(f"{option}: {word!r}: {why}", 2)
    left = list(map(str, words))
    readers: list[tuple[str, Callable[[str], object]]] = [
        ("--slack", number(0, LARGEST_SEED)), ("--closed", file_name), ("--draws", number(1, 2))]
    for name, read in readers:
        if left[:1] == [name]:
            try:
                read(left[1] if len(left) > 1 else "")
            except argparse.ArgumentTypeError as fault:
                raise wrong(" ".join(left[:2]), str(fault)) from None
            del left[:2]
    if not 1 <= len(left) <= MOST_LOTS:
        raise wrong(" ".join(left), f"1 to {MOST_LOTS} lots have to stand here, and {len(left)} do")
    proposals = 0
    for word in left:
        proposals += proposals_in(word, wrong)
        if proposals > MOST_PROPOSALS:
            raise wrong(word, f"at most {MOST_PROPOSALS:,} proposals in all")


def proposals_in(word: str, wrong: Callable[[str, str], Problem]) -> int:
    """How many proposals a lot has. What is wrong with it becomes a problem by the function `wrong`."""
    if word.startswith("--"):
        raise wrong(word, "the options are --slack N, --closed FILE and --draws 1|2, each once, in this order, before the lots")
    if word.startswith("w:"):
        numbers = word[2:].split(",")
        if not all(re.fullmatch("[0-9]{1,20}", one) and int(one) <= LARGEST_SEED for one in numbers) or len(numbers) % 8:
            raise wrong(word[:40], "a written lot has eight numbers below 2^64 for each proposal, with commas between them")
        return len(numbers) // 8
    found = re.fullmatch("([0-9]{1,20}):([0-9]{1,20})", word)
    if not found or int(found[1]) > LARGEST_SEED:
        raise wrong(word, "a lot is SEED:BUDGET, two numbers, the first below 2^64; or w: and numbers")
    return int(found[2])


def number(least: int, most: int) -> Callable[[str], int]:
    """Reads a word that has to be a number from least to most."""
    def read(word: str) -> int:
        if not re.fullmatch("[0-9]{1,20}", word) or not least <= int(word) <= most:
            raise argparse.ArgumentTypeError(f"{word!r} is not a number from {least} to {most}")
        return int(word)
    return read


def file_name(word: str) -> str:
    """A name that the program takes too."""
    if not is_text(word):
        raise argparse.ArgumentTypeError(f"{word!r} isn't UTF-8, and the program takes no such name")
    return any_file_name(word)


def any_file_name(word: str) -> str:
    """A name of a file of which the program isn't told."""
    if not word or word.startswith("-"):
        raise argparse.ArgumentTypeError(f"{word!r} is no name of a file")
    return word


def is_text(word: str) -> bool:
    """Whether a word of the command line is UTF-8."""
    try:
        word.encode()
    except UnicodeEncodeError:
        return False
    return True


def shown(word: str) -> str:
    """A word of the command line as a text that can be printed, whatever its bytes are."""
    return "".join(letter if letter.isprintable() else "\ufffd" for letter in os.fsencode(word).decode(errors="replace"))


def processors() -> int:
    """How many workers a run has if nobody says."""
    return max(1, min(MOST_LOTS, len(os.sched_getaffinity(0))))
