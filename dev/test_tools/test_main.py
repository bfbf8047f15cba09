"""The built program's `main`: its words, its two streams and its status, over the system's files."""
import resource
import subprocess

from common import PROGRAM, ToolCase, put, text_of

START = "cost 4200\nload 1700\nbalance 2500\nprocess 0\nservice 0\nmachine 0\n"
CLOSED_RUN = START + """bound 1300
best_at 0
assignment 0 3 0
draws 1
0 0 0 0 shift 0:0>0 refused same 0
1 0 1 1 shift 0:0>1 refused capacity 1 0 12 10
2 0 2 2 shift 1:3>0 refused conflict 0 0
3 0 3 3 swap 2:0>0 0:0>0 refused same 2
4 0 4 4 shift 2:0>3 refused capacity 3 0 16 10
5 0 5 5 shift 0:0>1 refused capacity 1 0 12 10
"""
REPAIRED = """feasible
assignment 0 3 0
0 shift 2:0>1 taken 2 2
1 shift 2:1>0 taken 2 2
2 shift 0:0>2 taken 2 1
3 shift 0:2>0 left 1 2
4 swap 1:0>2 0:2>0 taken 1 1
5 shift 1:2>3 taken 1 0
"""
EDITED = """cost 3700
load 1700
balance 2000
process 0
service 0
machine 0
initial 0 3 0 2
assignment 0 3 0 2
edit 0 done 3700
model
"""
TRIAL = """cost 240140
load 44530
balance 195610
process 0
service 0
machine 0
bound 193640
best_at 0
done 680
refused 1320
"""
USAGE = (
    "usage: reassign check MODEL INITIAL NEW [--closed FILE] | bound MODEL [INITIAL [--closed FILE]] | solve MODEL INITIAL "
    "[--slack N] [--closed FILE] [--draws 1|2] LOT ... | trial N | verify MODEL INITIAL REPORT [--slack N] [--closed FILE] "
    "[--draws 1|2] LOT ... | repair MODEL INITIAL [--closed FILE] LOT | edit MODEL INITIAL CURRENT EDITS [--closed FILE]\n"
)


class Main(ToolCase):
    @classmethod
    def setUpClass(cls):
        super().setUpClass()
        put("closed", "2\n")
        put("bad", "x\n")
        put("edits", "1 1 2 3 10 5\n")

    def expect_streams(self, status, printed, error, *words, memory=None):
        """A call that has to end so, with exactly this on standard output and on standard error."""
        def limits():
            resource.setrlimit(resource.RLIMIT_AS, (memory, memory))
        ran = subprocess.run([PROGRAM, *words], stdin=subprocess.DEVNULL, stdout=subprocess.PIPE, stderr=subprocess.PIPE,
                             text=True, preexec_fn=limits if memory else None)
        self.assertEqual((ran.returncode, ran.stdout, ran.stderr), (status, printed, error), words)

    def expect_refusal(self, status, line, *words, **how):
        self.expect_streams(status, "", line + "\n", *words, **how)

    # Each status

    def test_0(self):
        self.expect_streams(0, START, "", "check", "model", "initial", "initial")

    def test_2(self):
        for words in ([], ["nonsense"], ["check", "model", "initial"], ["check", "model", "initial", "new", "more"]):
            self.expect_streams(2, "", USAGE, *words)

    def test_3(self):
        self.expect_refusal(3, "read fault: nowhere", "bound", "nowhere")

    def test_4(self):
        self.expect_refusal(4, "bad model: bad byte 120 at 0", "bound", "bad")

    def test_5(self):
        self.expect_refusal(5, "bad assignment: bad: bad byte 120 at 0", "check", "model", "initial", "bad")

    def test_6(self):
        self.expect_refusal(6, "infeasible: crowded: conflict 0 0", "check", "model", "initial", "crowded")

    def test_7(self):
        with open("/dev/full", "w", encoding="utf-8") as full:
            ran = subprocess.run([PROGRAM, "check", "model", "initial", "new"], stdout=full, stderr=subprocess.PIPE, text=True)
        self.assertEqual((ran.returncode, ran.stderr), (7, "write fault\n"))

    def test_8(self):
        """The memory of a million proposals is taken before the first one is made."""
        self.expect_refusal(8, "no memory", "solve", "model", "initial", "1:1000000", memory=50_000_000)

    def test_9(self):
        put("cut", text_of("report")[:-1])
        self.expect_refusal(9, "wrong line 30", "verify", "model", "initial", "cut", "7:10", "8:10")

    def test_10(self):
        self.expect_refusal(10, "bad closed list: bad: bad byte 120 at 0", "check", "model", "initial", "new", "--closed", "bad")

    def test_11(self):
        self.expect_streams(11, "broken conflict 0 0\nassignment 0 0 1\n0 shift 2:0>1 taken 2 2\n",
                            "unrepaired: crowded: conflict 0 0\n", "repair", "model", "crowded", "1:1")

    def test_12(self):
        self.expect_refusal(12, "bad edits: bad: bad byte 120 at 0", "edit", "model", "initial", "new", "bad")

    # Each command with all of its options

    def test_check(self):
        self.expect_streams(0, START, "", "check", "model", "initial", "initial", "--closed", "closed")
        self.expect_refusal(6, "infeasible: new: closed 1 2", "check", "model", "initial", "new", "--closed", "closed")

    def test_bound(self):
        self.expect_streams(0, "bound 1300\nload 0\nbalance 1300\n", "", "bound", "model", "initial", "--closed", "closed")

    def test_solve_and_verify(self):
        options = ["--slack", "500", "--closed", "closed", "--draws", "1", "4:6"]
        self.expect_streams(0, CLOSED_RUN, "", "solve", "model", "initial", *options)
        put("closed_run", CLOSED_RUN)
        self.expect_streams(0, "accepted 6\n", "", "verify", "model", "initial", "closed_run", *options)
        self.expect_refusal(9, "wrong line 17", "verify", "model", "initial", "closed_run", *options, "5:1")

    def test_lots(self):
        """Sixteen lots, written and seeded."""
        lots = ["w:0,1,3,0,0,0,0,0", *(f"{seed}:1" for seed in range(15))]
        ran = subprocess.run([PROGRAM, "solve", "model", "initial", *lots], stdout=subprocess.PIPE, text=True)
        self.assertEqual((ran.returncode, len(ran.stdout.splitlines())), (0, 26))
        put("sixteen", ran.stdout)
        self.expect_streams(0, "accepted 16\n", "", "verify", "model", "initial", "sixteen", *lots)

    def test_trial(self):
        self.expect_streams(0, TRIAL, "", "trial", "1")

    def test_repair(self):
        self.expect_streams(0, REPAIRED, "", "repair", "model", "crowded", "--closed", "closed", "1:8")

    def test_edit(self):
        ran = subprocess.run([PROGRAM, "edit", "model", "initial", "initial", "edits", "--closed", "closed"],
                             stdout=subprocess.PIPE, stderr=subprocess.PIPE, text=True)
        self.assertEqual((ran.returncode, ran.stderr), (0, ""))
        self.assertTrue(ran.stdout.startswith(EDITED), ran.stdout)
        put("edited", ran.stdout[len(EDITED):])
        self.expect_streams(0, "bound 800\nload 0\nbalance 800\n", "", "bound", "edited")
        self.expect_refusal(6, "infeasible: new: closed 1 2", "edit", "model", "initial", "new", "edits", "--closed", "closed")
