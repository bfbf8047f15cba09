"""Calling the program `reassign`."""
import errno
import os
import shutil
import signal
import subprocess
import sys
import threading
from dataclasses import dataclass, fields
from typing import IO

from .children import PATIENCE, begin, end, forget
from .problems import Problem, Stopped

ROOT = os.path.dirname(os.path.dirname(os.path.dirname(os.path.realpath(__file__))))
PIECE = 1 << 20
LONGEST_ERROR = 1 << 16  # bytes of an error line
A_LINE, MOST_PRINTED = 64, 1 << 28  # bytes that a line takes beside its text, and that all lines may take
STATUSES = range(2, 13)
OPTIONS = {"reassign": "--program", "anneal": "--anneal"}  # that name the programs
BINARIES = ("crates/{0}/out/{0}", "../lib/reassign/{0}")  # from the folders of the scripts that call them


@dataclass(frozen=True)
class Costs:
    """What an assignment costs, and the five parts of it."""

    cost: int
    load: int
    balance: int
    process: int
    service: int
    machine: int


COSTS = tuple(field.name for field in fields(Costs))


def is_script(name: str) -> bool:
    try:
        with open(name, "rb") as file:
            return file.read(2) == b"#!"
    except OSError:
        return False


class Program:
    """A program that a tool calls: `reassign`, or `anneal`."""

    def __init__(self, named: str | None, called: str = "reassign") -> None:
        self.called = called
        named = named or os.environ.get(called.upper())
        here, installed = os.path.join(ROOT, called), called if called == "reassign" else f"reassign-{called}"
        beside = os.path.join(os.path.dirname(os.path.abspath(sys.argv[0])), installed)
        name = named or next(filter(os.path.isfile, (here, beside)), shutil.which(installed))
        if not name or not os.path.isfile(name) or not os.access(name, os.X_OK):
            raise Problem(f"there is no program {name or called}: name it with {OPTIONS[called]}")
        self.name = name
        if self.name == here:
            self.make()

    def binary(self) -> str:
        """The program's own file, which the repository's call of it finds, as an installed one does."""
        folder = os.path.dirname(os.path.realpath(self.name))
        places = (os.path.join(folder, place.format(self.called)) for place in BINARIES) if is_script(self.name) else ()
        return next(filter(os.path.isfile, places), os.path.abspath(self.name))

    def make(self) -> None:
        """The repository's own call proves and compiles the program if that is due, and says on standard error how far it
        is: so it is called once with nothing in between."""
        words = ["bound", os.path.join(ROOT, "examples/sample/model")] if self.called == "reassign" else ["--version"]
        made = begin([self.name, *words], stdout=subprocess.DEVNULL)
        try:
            status = made.wait()
        except BaseException:
            end(made)
            raise
        forget(made)
        if status:
            raise Problem("the program was not made")

    def run(self, *words: object, keep: str | None = None, lines: int | None = None, endings: tuple[int, ...] = (0,),
            limit: float | None = None) -> tuple[int | None, list[str], str]:
        """Runs a command. Answers its status, the lines that it prints (the first ones, if their number is given), and
        its error line. Its output goes to the file `keep` too. Another status than those of `endings` ends the tool. After so
        many seconds as `limit` the command is ended, and the status is None."""
        try:
            run = begin([self.name, *map(str, words)], stdout=subprocess.PIPE, stderr=subprocess.PIPE)
        except OSError as fault:
            if fault.errno in (errno.ENOMEM, errno.EAGAIN):
                raise MemoryError from None
            raise Problem(f"{self.name} can't be run: {fault.strerror}") from None
        assert run.stdout and run.stderr
        is_over = threading.Event()

        def stop() -> None:
            is_over.set()
            run.kill()
        alarm = threading.Timer(limit, stop) if limit is not None else None
        try:
            errors = Errors(run.stderr)
            if alarm:
                alarm.start()
            printed = self.read_output(run.stdout, keep, lines)
            status, error = run.wait(), errors.last_line()
        except BaseException:
            end(run)
            raise
        finally:
            if alarm:
                alarm.cancel()
            run.stdout.close()
        forget(run)
        if is_over.is_set() and status == -signal.SIGKILL:
            return None, printed, error
        if status < 0 and -status in (signal.SIGINT, signal.SIGTERM):
            raise Stopped(-status)
        if status < 0:
            raise Problem(f"`reassign {words[0]}` was ended by signal {-status}", 8)
        if status not in endings:
            raise self.refusal(status, error, words[0])
        return status, printed, error

    def refusal(self, status: int, error: str, word: object) -> Problem:
        """The problem that the program's own status and line are."""
        if status in STATUSES:
            return Problem(error or f"`reassign {word}` ended with status {status}", status)
        return Problem(f"`{self.name} {word}` ended with status {status}, which isn't one of reassign's: is it the program?")

    def read_output(self, pipe: IO[bytes], keep: str | None, lines: int | None) -> list[str]:
        """The lines that come, or the first ones; all go to the file `keep`, if there is one."""
        printed: list[str] = []
        size = 0
        with open(keep, "wb") if keep else open(os.devnull, "wb") as copy:
            while line := pipe.readline(PIECE) if lines is None or len(printed) < lines else pipe.read(PIECE):
                if keep:
                    copy.write(line)
                if lines is None or len(printed) < lines:
                    size += len(line) + A_LINE
                    if size > MOST_PRINTED:
                        raise self.no_program("prints without an end")
                    printed.append(line.decode(errors="replace").rstrip("\n"))
        return printed

    def no_program(self, what: str) -> Problem:
        return Problem(f"`{self.name}` {what}: is it the program?")

    def numbers(self, *words: object) -> dict[str, int]:
        """The lines of a command that prints words with one number each, by their words."""
        _, lines, _ = self.run(*words)
        try:
            found = {word: int(value) for word, value in (line.split() for line in lines)}
        except ValueError:
            found = {}
        if not found.keys() >= set(COSTS if words[0] == "check" else (words[0],)):
            raise self.no_program("doesn't print what reassign prints")
        return found

    def costs(self, model: str, initial: str, new: str, *closing: str) -> Costs:
        """What `check` says of a list. Raises Problem if it refuses it."""
        found = self.numbers("check", model, initial, new, *closing)
        return Costs(*(found[word] for word in COSTS))


class Errors:
    """Reads what a program says on standard error beside its output, and keeps the end of it."""

    def __init__(self, pipe: IO[bytes]) -> None:
        self.pipe, self.end = pipe, b""
        self.reader = threading.Thread(target=self.read, daemon=True)
        self.reader.start()

    def read(self) -> None:
        with self.pipe:
            while piece := os.read(self.pipe.fileno(), LONGEST_ERROR):
                self.end = (self.end + piece)[-LONGEST_ERROR:]

    def last_line(self) -> str:
        """The last line, when the program has ended."""
        self.reader.join(PATIENCE)
        lines = self.end.decode(errors="replace").strip().splitlines()
        return lines[-1] if lines else ""


def closed_words(closed: str | None) -> list[str]:
    return ["--closed", closed] if closed else []


def slack_words(slack: int | None) -> list[str]:
    return ["--slack", str(slack)] if slack else []
