"""Processes that a tool begins, and that end with it."""
import ctypes
import errno
import os
import shutil
import signal
import subprocess
import threading
import time
from functools import lru_cache
from typing import Any

from .problems import Problem, Stopped

PR_SET_PDEATHSIG = 1
PATIENCE = 3.0  # seconds that a command has to end well
_prctl = ctypes.CDLL(None).prctl


def end_with(parent: int, by: int = signal.SIGKILL) -> None:
    """Called in a new process: the system ends it if the thread that began it ends, whatever kills that."""
    _prctl(PR_SET_PDEATHSIG, int(by), 0, 0, 0)
    if os.getppid() != parent:
        os._exit(1)


_begun: dict[int, subprocess.Popen[bytes]] = {}  # the commands that haven't ended, by their numbers
_begins = False  # whether the main thread begins a command
_stop_waits = 0  # the signal by which it was to stop meanwhile


def begin(command: list[str], **how: Any) -> subprocess.Popen[bytes]:
    """Begins a command in a process group of its own, so that Ctrl-C reaches the tool alone, which ends the group then. If the
    tool is killed, the system ends the command (by setpriv of util-linux). Reads nothing from standard input. Raises OSError if
    there is no such command."""
    global _begins, _stop_waits
    if not shutil.which(command[0]):
        fault = errno.EACCES if os.path.exists(command[0]) else errno.ENOENT
        raise OSError(fault, os.strerror(fault), command[0])
    by_main = threading.current_thread() is threading.main_thread()
    if by_main:  # no other thread writes this, or it may put back what the main thread has changed since
        _begins = True
    try:
        run = subprocess.Popen([*ending_with_this(), *command], stdin=subprocess.DEVNULL, start_new_session=True, **how)
        _begun[run.pid] = run
    finally:
        if by_main:
            _begins = False
    if by_main and _stop_waits:
        number, _stop_waits = _stop_waits, 0
        end(run)
        raise Stopped(number)
    return run


@lru_cache(maxsize=1)
def ending_with_this() -> list[str]:
    """The first words of a command that ends with this thread."""
    if not (setpriv := shutil.which("setpriv")):
        raise Problem("there is no setpriv, which util-linux has: no program is begun that might outlive the tool")
    return [setpriv, "--pdeathsig", "KILL", "--"]


def has_to_wait(number: int) -> bool:
    """Whether a stop has to wait, since a command is being begun: Python calls functions of its own then, which swallow what a
    signal's handler raises. `begin` raises Stopped after that."""
    global _stop_waits
    _stop_waits = number if _begins else 0
    return _begins


def signal_group(group: int, by: int) -> None:
    try:
        os.killpg(group, by)
    except (ProcessLookupError, PermissionError):
        pass


def end(run: subprocess.Popen[bytes]) -> None:
    """Ends a command that was begun, and whatever it began itself: well, or else at once."""
    signal_group(run.pid, signal.SIGTERM)
    try:
        run.wait(PATIENCE)
    except subprocess.TimeoutExpired:
        pass
    signal_group(run.pid, signal.SIGKILL)
    run.wait()
    forget(run)


def forget(run: subprocess.Popen[bytes]) -> None:
    """A command has ended."""
    _begun.pop(run.pid, None)


def end_all() -> None:
    """Ends all commands that haven't ended."""
    runs = list(_begun.values())
    for run in runs:
        signal_group(run.pid, signal.SIGTERM)
    last = time.monotonic() + PATIENCE
    for run in runs:
        try:
            run.wait(max(0.0, last - time.monotonic()))
        except subprocess.TimeoutExpired:
            pass
        signal_group(run.pid, signal.SIGKILL)
        forget(run)
