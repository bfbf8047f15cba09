"""How tools end: with one line and a status of the table, whatever comes, and without a trace of what they had for a while."""
import os
import random
import resource
import signal
import subprocess
import time
import unittest.mock

from common import PROGRAM, ToolCase, put, run, text_of, tool_path

ZEROS = "0" * 5000
CALLS = (("summary", "new", "model", "initial"), ("moves", "model", "initial", "new"),
         ("evacuate", "model", "initial", "closed", "--out", "x", "--budget", "0"),
         ("repair_words", "model", "initial", "--out", "x"), ("plot", "new", "model", "initial"))


class Ends(ToolCase):
    def setUp(self):
        place = unittest.mock.patch.dict(os.environ, TMPDIR=os.path.abspath("tmp"))
        place.start()
        self.addCleanup(place.stop)
        os.makedirs("tmp", exist_ok=True)

    def tearDown(self):
        self.assertEqual(os.listdir("tmp"), [])

    def expect_end(self, statuses, words, line=None, memory=None, **how):
        """A call that ends with one of these statuses, in at most one line of the tool, and soon."""
        limits = (lambda: resource.setrlimit(resource.RLIMIT_AS, (memory, memory))) if memory else None
        ran = run(tool_path(words[0]), *words[1:], preexec_fn=limits, timeout=60, **how)
        told = f"{words}\n{ran.stderr}"
        self.assertIn(ran.returncode, statuses, told)
        self.assertNotIn("Traceback", ran.stderr, told)
        if line is not None:
            self.assertEqual(ran.stderr, f"{words[0]}: {line}\n")
        return ran

    def test_many_zeros(self):
        """Five thousand zeros before a number mean nothing."""
        model = text_of("model").split()
        put("model_0", " ".join(ZEROS + word if at % 3 == 0 else word for at, word in enumerate(model)))
        put("initial_0", " ".join(ZEROS + word for word in text_of("initial").split()))
        put("new_0", " ".join(ZEROS + word for word in text_of("new").split()))
        put("closed_0", ZEROS + "0")
        put("crowded_0", " ".join([ZEROS + "0"] * 3))
        for tool, *words in CALLS:
            zeros = [f"{word}_0" if os.path.exists(f"{word}_0") else word for word in words]
            before, after = (self.expect_end((0, 11), (tool, *some)).stdout for some in (words, zeros))
            self.assertEqual(before.replace("model ", "").count("\n"), after.count("\n"))
        self.expect_end((0,), ("repair_words", "model_0", "crowded_0", "--out", "x"))

    def test_too_large(self):
        put("large", "9" * 5000)
        put("large_model", text_of("model").replace("30 400", f"{'9' * 5000} 400"))
        for tool, *words in CALLS:
            for name, large in (("initial", "large"), ("new", "large"), ("model", "large_model")):
                if name in words:
                    self.expect_end((4, 5), (tool, *(large if word == name else word for word in words)))

    def test_closed_streams(self):
        for tool, *words in CALLS:
            for closed in (">&-", "<&-", "2>&-", "<&- 2>&-", "<&- >&- 2>&-"):
                command = ["sh", "-c", f'"$0" "$@" {closed}', tool_path(tool), *words]
                ran = run(*command, timeout=60)
                self.assertEqual(ran.returncode, 7 if ">&-" in closed.split() else 0 if tool != "evacuate" else ran.returncode, (command, ran.stderr))
                self.assertNotIn("Traceback", ran.stderr)
                self.assertLessEqual(ran.stderr.count("\n"), 3)
        self.assertEqual(run("sh", "-c", '"$0" "$@" >&-', tool_path("moves"), "model", "initial", "new").stderr,
                         "moves: write fault: Bad file descriptor\n")

    def test_bytes_of_a_title(self):
        self.expect_end((0,), ("plot", b"--title", b"inv\xff", "new", "model", "initial", "--out", "titled.svg"))
        self.assertIn("inv\ufffd", text_of("titled.svg"))
        self.expect_end((0,), ("summary", b"--title", b"inv\xff", "new", "model", "initial", "--json"))

    def test_little_memory(self):
        for tool, *words in CALLS:
            self.expect_end((8,), (tool, *words), "no memory", memory=30_000 * 1024)

    def test_endless_files(self):
        """What the format bounds is bounded in reading."""
        little = 600 << 20
        self.expect_end((9,), ("summary", "/dev/zero", "model", "initial"), memory=little)
        self.expect_end((9,), ("plot", "/dev/zero", "model", "initial"), memory=little)
        self.expect_end((4, 5), ("plot", "new", "/dev/zero", "initial"), memory=little)
        self.expect_end((4,), ("moves", "model", "initial", "new", "--names", "/dev/zero"), memory=little)
        self.expect_end((4,), ("named", "from-kubectl", "/dev/zero", "/dev/zero", "made"), memory=little)
        for endless in ("yes 1", "yes '1 2' | tr -d '\\n'", "tr '\\\\0' 0 < /dev/zero", "yes ''"):
            with self.subTest(endless):
                ran = run("sh", "-c", f'{endless} | "$0" new model /dev/stdin', tool_path("plot"), timeout=60)
                self.assertEqual(ran.returncode, 5, ran.stderr)
        for program in ("/bin/yes", "/bin/false", "/bin/true"):
            self.expect_end((3,), ("moves", "model", "initial", "new", "--program", program), memory=little << 1)

    def test_stopped_at_any_time(self):
        """SIGINT and SIGTERM end a tool with 130 and 143, in one line or none, from the first line on."""
        chance = random.Random(1)
        model, initial = self.make_instance("stopped", 30, 300, 3, 1)
        for turn in range(24):
            by = (signal.SIGINT, signal.SIGTERM)[turn % 2]
            begun = subprocess.Popen([tool_path("moves"), model, initial, initial], stdin=subprocess.DEVNULL, stdout=subprocess.PIPE,
                                     stderr=subprocess.PIPE, text=True)
            time.sleep(chance.random() * 0.6)
            begun.send_signal(by)
            _, error = begun.communicate(timeout=60)
            status = begun.returncode if begun.returncode >= 0 else 128 - begun.returncode
            self.assertIn(status, (0, 128 + by), error)
            self.assertIn(error, ("", "moves: stopped\n"))


class Verify(ToolCase):
    def test_words_for_the_program(self):
        """Words that a tool hands on to the program are refused with the wrong one, and not by a list of all commands."""
        for lots, line in (("1:1000001", "'1:1000001': at most 1,000,000 proposals in all"),
                           ("1:600000 2:600000", "'2:600000': at most 1,000,000 proposals in all"),
                           ("7:10 --slack 3", "'--slack': the options are --slack N, --closed FILE and --draws 1|2, each once, in this order, "
                                              "before the lots"),
                           ("--draws 3 7:10", "'--draws 3': '3' is not a number from 1 to 2"),
                           ("w:1,2,3", "'w:1,2,3': a written lot has eight numbers below 2^64 for each proposal, with commas between them"),
                           ("7", "'7': a lot is SEED:BUDGET, two numbers, the first below 2^64; or w: and numbers"),
                           ("", "'': 1 to 16 lots have to stand here, and 0 do")):
            self.expect_line(2, f"summary: --lots: {line}", tool_path("summary"), "report", "model", "initial", f"--lots={lots}")
        self.expect(0, "summary", "report", "model", "initial", "--lots", " ".join(["7:10", "8:10"]))

    def test_calls(self):
        from reassign_tools import Problem, solve
        with self.assertRaises(Problem) as raised:
            solve("model", "initial", [(1, 1_000_001)], program=PROGRAM)
        line = "lots[0] is 1000001, and has to be a number from 0 to 1,000,000"
        self.assertEqual((raised.exception.status, raised.exception.line), (2, line))
