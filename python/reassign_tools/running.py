"""How a tool runs: what may end it becomes one line and a status."""
import os
import signal
import sys
import threading
from _thread import interrupt_main
from argparse import ArgumentParser, Namespace
from collections.abc import Callable
from typing import NoReturn

from . import children, files
from .__main__ import STOPS, end_of, open_streams
from .problems import Problem, Stopped
from .texts import print_in_utf8

PACKAGE = os.path.dirname(os.path.realpath(__file__))

_name = "reassign_tools"  # of the tool that runs
Work = Callable[[Namespace], int | None]
_stopped_by: int = signal.SIGINT
_fault: BaseException | None = None  # of another thread, which ends the tool


def run_tool(parser: ArgumentParser, work: Work, words: list[str] | None = None) -> NoReturn:
    """Runs a tool: hands the options that the words name to its work, and ends the process with the status that comes, with
    one line on standard error under each but 0 and 11. Nothing is left then that was there for a while."""
    global _name
    _name = parser.prog
    threading.excepthook = end_by_thread
    sys.unraisablehook = lambda _: None
    for one in STOPS:
        if one != signal.SIGHUP or signal.getsignal(one) != signal.SIG_IGN:  # as `nohup` leaves it
            signal.signal(one, stop)
    status, line = ended(parser, work, words)
    no_more_stops()
    children.end_all()
    files.remove_what_is_left()
    try:
        sys.stdout.flush()
    except (OSError, ValueError):
        status, line = status or 7, line or "write fault"
        os.dup2(os.open(os.devnull, os.O_WRONLY), 1)
    if line:
        say(line)
    try:
        sys.stdout.flush()
        sys.stderr.flush()
    except OSError:
        pass
    os._exit(status)


def ended(parser: ArgumentParser, work: Work, words: list[str] | None) -> tuple[int, str]:
    """The status with which the work ends, and the line that tells why."""
    try:
        open_streams()
        print_in_utf8()
        status = work(parser.parse_args(words)) or 0
        sys.stdout.flush()
        return status, ""
    except Problem as problem:
        return problem.status, problem.line
    except SystemExit as end:
        return end.code if isinstance(end.code, int) else 0, ""
    except BaseException as fault:
        return end_of(_fault or fault)


def end_by_thread(raised: threading.ExceptHookArgs) -> None:
    """What nobody caught in another thread ends the tool too."""
    global _fault
    if not isinstance(raised.exc_value, SystemExit):
        _fault = raised.exc_value or MemoryError()
        interrupt_main()


def command_of(tool: str) -> list[str]:
    """The first words of a command that runs a tool of this package."""
    return [sys.executable or "python3", PACKAGE, tool]


def stop(number: int = signal.SIGINT, _: object = None) -> None:
    global _stopped_by
    no_more_stops()
    _stopped_by = number
    if not children.has_to_wait(number):
        raise Stopped(number)


def stopped_status() -> int:
    """The status of a tool that was stopped."""
    return 128 + _stopped_by


def no_more_stops() -> None:
    """From here on Ctrl-C ends nothing: what is left takes a moment."""
    for one in STOPS:
        signal.signal(one, signal.SIG_IGN)


def say(line: str) -> None:
    """A line of the tool on standard error."""
    try:
        print(f"{_name}: {line}", file=sys.stderr, flush=True)
    except OSError:
        pass
