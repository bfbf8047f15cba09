"""What the tests share: a folder of their own with the sample's files in it, and calls of the program and of the tools."""
import os
import resource
import shutil
import signal
import subprocess
import sys
import tempfile
import time
import unittest

ROOT = os.path.dirname(os.path.dirname(os.path.dirname(os.path.realpath(__file__))))
SAMPLE = os.path.join(ROOT, "examples", "sample")
PROGRAM = os.environ.get("REASSIGN", "")
_anneal = os.environ.get("ANNEAL") or os.path.join(ROOT, "crates", "anneal", "out", "anneal")
ANNEAL = _anneal if os.access(_anneal, os.X_OK) else ""  # ./anneal or `rt ci` makes it
LOTS = ["7:10", "8:10"]


def text_of(name):
    with open(name, encoding="utf-8") as file:
        return file.read()


def put(name, text):
    with open(name, "w", encoding="utf-8") as file:
        file.write(text)


def run(*words, **how):
    """Runs a command to its end: its status, its output and its errors as text."""
    how = {"stdin": subprocess.DEVNULL, "stdout": subprocess.PIPE, "stderr": subprocess.PIPE, "text": True,
           "errors": "replace", **how}
    return subprocess.run([word if isinstance(word, bytes) else str(word) for word in words], **how)


def program(*words):
    """Runs the program: its status and its output."""
    ran = run(PROGRAM, *words)
    return ran.returncode, ran.stdout


def tool_path(tool):
    return os.path.join(ROOT, "tools", tool)


def begin(tool, *words, out=subprocess.PIPE, size=None):
    """Begins a tool, as a terminal would. `size` is the largest file that it may write."""
    def prepare():
        signal.signal(signal.SIGHUP, signal.SIG_DFL)
        if size is not None:
            resource.setrlimit(resource.RLIMIT_FSIZE, (size, size))
    return subprocess.Popen([tool_path(tool), *map(str, words)], stdin=subprocess.DEVNULL, stdout=out, stderr=subprocess.PIPE,
                            text=True, errors="replace", preexec_fn=prepare)


def put_slow_program(name, condition, program=PROGRAM):
    """Writes a program that does nothing for long if a condition of the shell holds of its words, and tells its number in the
    file NAME.runs then; else it is the program."""
    put(name, f'#!/bin/sh\n{condition} || exec "{program}" "$@"\necho $$ > "{os.path.abspath(name)}.new"\n'
        f'mv "{os.path.abspath(name)}.new" "{os.path.abspath(name)}.runs"\nexec sleep 1000\n')
    os.chmod(name, 0o755)


def children(process):
    """The numbers of the processes that a process began and that still run."""
    try:
        return list(map(int, text_of(f"/proc/{process}/task/{process}/children").split()))
    except OSError:
        return []


def is_ready(process):
    """Whether a tool has begun to work: it catches SIGTERM then."""
    try:
        caught = next(line for line in text_of(f"/proc/{process}/status").splitlines() if line.startswith("SigCgt:"))
    except (OSError, StopIteration):
        return False
    return bool(int(caught.split()[1], 16) >> signal.SIGTERM - 1 & 1)


def stop(begun, seconds=0, by=signal.SIGINT):
    """Stops a tool so many seconds after it began to call the program: its status, its output and its errors."""
    while begun.poll() is None and not (is_ready(begun.pid) and children(begun.pid)):
        time.sleep(0.01)
    time.sleep(seconds)
    begun.send_signal(by)
    printed, error = begun.communicate()
    return begun.returncode, printed, error


class ToolCase(unittest.TestCase):
    """Tests in a folder of their own, which has the sample's files and some that are wrong."""

    maxDiff = None

    @classmethod
    def setUpClass(cls):
        cls.before = os.getcwd()
        cls.folder = tempfile.mkdtemp(prefix="test_tools-")
        cls.addClassCleanup(shutil.rmtree, cls.folder, ignore_errors=True)
        cls.addClassCleanup(os.chdir, cls.before)
        os.chdir(cls.folder)
        for name in ("model", "initial", "new"):
            shutil.copy(os.path.join(SAMPLE, name), name)
        put("closed", "0\n")
        put("crowded", "0 0 0\n")
        put("other", "0 2 0\n")
        put("empty", "")
        put("cut_model", text_of("model")[:100])
        put("cut_list", "0 3\n")
        os.mkdir("folder")
        _, report = program("solve", "model", "initial", *LOTS)
        put("report", report)

    def expect(self, status, tool, *words, begun=False, **how):
        """A call that has to end with this status; it is refused in one line, after those of progress if it had `begun`.
        Answers what it prints."""
        run = begin(tool, *words, **how)
        printed, error = run.communicate()
        lines, told = error.splitlines(), f"{tool} {' '.join(map(str, words))}\n{printed}{error}"
        self.assertEqual(run.returncode, status, told)
        self.assertNotIn("Traceback", error, told)
        if status not in (0, 11):
            self.assertTrue(lines and lines[-1].startswith(f"{tool}: "), told)
            self.assertTrue(begun or len(lines) == 1, told)
        if status not in (0, 7, 11):
            self.assertFalse(printed, told)
        self.assertEqual([name for name in os.listdir(".") if name.startswith(".")], [], told)
        return printed or ""

    def expect_line(self, status, line, *words):
        """A command that has to end with this status and, on standard error, this one line (if it is None, any)."""
        ran = run(*words)
        told = f"{words}\n{ran.stdout}{ran.stderr}"
        self.assertEqual(ran.returncode, status, told)
        self.assertEqual(len(ran.stderr.splitlines()), 1, told)
        if line is not None:
            self.assertEqual(ran.stderr, line + "\n", told)

    def wait_for(self, condition, begun, seconds=600):
        """Waits until something is so, as long as what was begun runs."""
        end = time.monotonic() + seconds
        while not condition():
            self.assertIsNone(begun.poll(), "it ended before")
            self.assertLess(time.monotonic(), end, "it never came")
            time.sleep(0.01)

    def make_instance(self, name, *numbers):
        """A skewed instance: machines, processes, resources, seed. Answers its model and its start."""
        made = run(sys.executable, os.path.join(ROOT, "bench", "make_instance.py"), name, *numbers, "skewed")
        self.assertEqual(made.returncode, 0, made.stderr)
        return f"{name}/model", f"{name}/initial"

    def is_feasible(self, model, initial, name, *closing):
        return program("check", model, initial, name, *closing)[0] == 0

    def cost(self, model, initial, name, *closing):
        status, printed = program("check", model, initial, name, *closing)
        self.assertEqual(status, 0, f"{name} is not feasible")
        return int(printed.split()[1])
