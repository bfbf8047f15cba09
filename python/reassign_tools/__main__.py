"""Runs a tool of this package: `python3 -m reassign_tools improve WORD ..`, or `python3 THIS_FOLDER improve WORD ..`, as the
files of tools/ do. Those block the signals that stop a tool until this module says what they do."""
import signal

if __name__ == "__main__":
    signal.signal(signal.SIGINT, signal.SIG_DFL)  # until `main` says what Ctrl-C does
import errno
import importlib
import os
import sys
from typing import NoReturn

TOOLS = ("evacuate", "improve", "moves", "named", "plot", "race", "repair_words", "summary")
STOPS = (signal.SIGINT, signal.SIGTERM, signal.SIGHUP)
WANTS = ("cannot allocate memory", "failed to map segment", "can't start new thread", "cannot apply additional memory protection")


def end_of(fault: BaseException) -> tuple[int, str]:
    """The status and the line with which a tool ends if nothing else catches a fault. This is the one place for what is left."""
    text = str(fault).splitlines()[0] if str(fault) else ""
    if isinstance(fault, KeyboardInterrupt):
        return 128 + getattr(fault, "signal", signal.SIGINT), "stopped"
    if isinstance(fault, (MemoryError, RecursionError)) or getattr(fault, "errno", None) == errno.ENOMEM \
            or any(word in text.lower() for word in WANTS):
        return 8, "no memory"
    if isinstance(fault, BrokenPipeError):
        return 7, "write fault: nobody reads the output any more"
    if isinstance(fault, OSError):
        return 7, f"write fault: {fault.strerror or text}"
    return 1, f"this tool has a fault: {type(fault).__name__}: {text[:200]}; please report it"


def leave(status: int, line: str) -> NoReturn:
    """Ends the process at once, with a line on standard error."""
    try:
        os.write(2, f"{sys.argv[1]}: {line}\n".encode(errors="replace"))
    except OSError:
        pass
    os._exit(status)


def open_streams() -> None:
    """A standard stream that is closed becomes one that takes nothing, or says nothing, so that no other file gets its number."""
    for number, flags in enumerate((os.O_RDONLY, os.O_RDONLY, os.O_WRONLY)):
        try:
            os.fstat(number)
        except OSError:
            os.open(os.devnull, flags)
    if sys.stdout is None:
        sys.stdout = open(1, "w", encoding="utf-8", closefd=False)
    if sys.stderr is None:
        sys.stderr = open(2, "w", encoding="utf-8", closefd=False)


def main() -> int:
    name = sys.argv[1] if len(sys.argv) > 1 else ""
    if name not in TOOLS:
        print(f"usage: reassign_tools {'|'.join(TOOLS)} WORD ..", file=sys.stderr)
        return 2
    for one in STOPS:
        if one != signal.SIGHUP or signal.getsignal(one) != signal.SIG_IGN:  # as `nohup` leaves it
            signal.signal(one, lambda number, _: leave(128 + number, "stopped"))
    signal.pthread_sigmask(signal.SIG_UNBLOCK, STOPS)
    try:
        open_streams()
        importlib.import_module(f"reassign_tools.{name}").main(sys.argv[2:])
        return 0
    except BaseException as fault:
        leave(*end_of(fault))


if __name__ == "__main__":
    if not __package__:
        sys.path[0] = os.path.dirname(os.path.dirname(os.path.realpath(__file__)))
        sys.dont_write_bytecode = True
    sys.exit(main())
