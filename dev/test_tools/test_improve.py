"""improve: how it cuts its time and its tries, what it keeps and tells, and that two calls don't write one list."""
import json
import os
import signal
import unittest

from common import ANNEAL, ROOT, ToolCase, begin, put, put_slow_program, run, text_of, tool_path
from reassign_tools.improve_pieces import Cooling, Piece, Timed, pieces_of_tries

# Process 0 stands on machine 0 and costs 100 to move; process 1 stands on machine 2, which is above its safety capacity.
MODEL = """1
0 1
4
0 0 100 100 0 0 0 0
0 1 100 100 0 0 0 0
0 2 100 0 0 0 0 0
0 3 100 100 0 0 0 0
2
1 0
1 0
2
0 10 100
1 10 1
0
1 0 0
"""


class Machine:
    """Stands in for the programs on a machine whose clock this test holds: a call takes `around` seconds and its tries."""

    def __init__(self, seconds, processes, rate, around, proposal=1e-5, swing=lambda: 1.0):
        self.seconds, self.processes, self.rate, self.around, self.proposal, self.swing = seconds, processes, rate, around, proposal, swing
        self.now, self.calls, self.lost, self.lists = 0.0, [], 0, 0

    def left(self):
        return self.seconds - self.now

    def take(self, seconds, has_limit=True):
        over = self.now + seconds * self.swing()
        if has_limit and over > self.seconds:
            self.now, self.lost = self.seconds, self.lost + 1
            return False
        self.now, self.lists = over, self.lists + 1
        return True

    def descend(self):
        self.now, self.lists = self.now + self.around, self.lists + 1

    def call(self, tries, heat, limit=None):
        if self.take(self.around + tries / self.rate):
            self.calls.append((tries, heat))
            return Piece(tries, self.rate, heat or (1000, 0))
        return None

    def solve(self, proposals, has_limit=True):
        return self.proposal if self.take(self.around + proposals * self.proposal, has_limit) else None


class Pieces(unittest.TestCase):
    def ended(self, machine, machines, reading):
        Timed(machine, Cooling(machines, False), reading).go()
        self.assertLessEqual(machine.now, max(machine.seconds, 3 * (machine.around + machine.processes * machine.proposal)))
        self.assertGreater(machine.lists, 0, "nothing was found")
        return machine

    def test_on_time(self):
        """Whatever the sizes, the rates and the swings are, it ends on time and has found something."""
        for seconds in (0.01, 1, 3, 10, 60, 3600):
            for machines, processes, rate, around in ((100, 1000, 1e7, 0.01), (1000, 20_000, 3e6, 0.3), (5000, 50_000, 1e6, 2.0)):
                for swings in ((1.0,), (1.0, 3.0), (0.5, 1.0, 2.0)):
                    turns = iter(swings * 100_000)
                    machine = Machine(seconds, processes, rate, around, swing=lambda: next(turns))
                    self.ended(machine, machines, around / 2)
                    self.assertLess(len(machine.calls), 400 + seconds)

    def test_long(self):
        """Nearly all of the time goes to tries, the heat falls to 0, and the pieces take some seconds each."""
        machine = self.ended(Machine(60, 1000, 1e7, 0.01), 100, 0.01)
        self.assertGreater(sum(tries for tries, _ in machine.calls), 0.93 * 60 * 1e7)
        heats = [heat for tries, heat in machine.calls[-40:] if heat and heat[0]]
        self.assertEqual(heats, sorted(heats, reverse=True))
        self.assertTrue(all(high == low for (_, high), (low, _) in zip(heats, heats[1:])), heats)
        self.assertTrue(all(tries < 10.5 * 1e7 for tries, _ in machine.calls))

    def test_cooling(self):
        """Pieces of any lengths cool down as one search does, and a search that goes on begins at a lower heat."""
        cooling = Cooling(1, False)
        cooling.begin(10**9, 10**6, 0)
        cooling.heat = 10.0**9
        cooling.passed(0.5)
        cooling.passed(0.2)
        self.assertAlmostEqual(cooling.heat / 10**9, 0.4**4)
        self.assertEqual(cooling.cut(1.0)[1], 0)
        fresh, going = Cooling(10, False), Cooling(10, True)
        for one in (fresh, going):
            one.begin(10**6, 10**7, 9 * 10**7)
        self.assertLess(going.heat, fresh.heat / 4)

    def test_tries(self):
        """All tries are made, in pieces that their number alone tells."""
        for tries in (1, 1000, 2_000_000, 123_456_789):
            calls = []

            def call(some, heat):
                calls.append((some, heat))
                return Piece(some, 1.0, heat or (500, 0))
            pieces_of_tries(call, Cooling(100, False), tries)
            self.assertEqual(sum(some for some, _ in calls), tries)
            self.assertEqual(calls[0][1], None)


class Improve(ToolCase):
    def test_tries(self):
        """The same words make the same bytes."""
        model, initial = self.make_instance("twice", 20, 100, 3, 1)
        told = []
        for out in ("one", "two"):
            told.append(self.expect(0, "improve", model, initial, "--out", out, "--tries", 5_000_000, "--workers", 2, "--seed", 7))
        self.assertEqual((told[0], text_of("one")), (told[1], text_of("two")))
        self.assertIn(f"cost {self.cost(model, initial, 'one')}\n", told[0])
        self.assertIn("no move of a single process makes it cheaper", told[0])

    def test_goes_on(self):
        """A list that is there becomes cheaper or stays, and the log has what came, piece by piece."""
        model, initial = self.make_instance("on", 20, 100, 3, 2)
        self.expect(0, "improve", model, initial, "--out", "on/best", "--tries", 20)
        before = self.cost(model, initial, "on/best")
        whole = json.loads(self.expect(0, "improve", model, initial, "--out", "on/best", "--tries", 300_000, "--log", "on/log", "--json"))
        lines = [json.loads(line) for line in text_of("on/log").splitlines()]
        costs = [line["cost"] for line in lines]
        self.assertEqual(costs, sorted(costs, reverse=True))
        self.assertEqual([line["piece"] for line in lines], list(range(1, len(lines) + 1)))
        self.assertEqual((whole["cost"], costs[-1]), (self.cost(model, initial, "on/best"),) * 2)
        self.assertLessEqual(whole["cost"], before)
        self.assertEqual(sum(line["tries"] for line in lines), whole["tries"])
        self.assertLessEqual(whole["bound"], whole["cost"])
        self.assertIn("is left", whole["sentence"])

    def test_plot(self):
        """`plot` draws a line for each log, and refuses what is none."""
        for seed in (1, 2):
            self.expect(0, "improve", "model", "initial", "--out", "drawn", "--tries", 500, "--seed", seed, "--log", f"log{seed}")
        self.expect(0, "plot", "--out", "picture.svg", "log1", "log2", "log1", "log2")
        self.assertEqual(text_of("picture.svg").count("<polyline"), 4)
        put("cut_log", text_of("log1")[:-9])
        self.expect(9, "plot", "cut_log")
        self.expect(9, "plot", "log1", "model")
        self.expect(2, "plot", "--run", "log1")
        self.expect(2, "plot", "report", "model", "initial", "log1")

    def test_little_time(self):
        """A time too short for anything still gives a descent."""
        model, initial = self.make_instance("short", 20, 100, 3, 1)
        told = self.expect(0, "improve", model, initial, "--out", "short/best", "--seconds", "0.01")
        self.assertLess(self.cost(model, initial, "short/best"), self.cost(model, initial, initial))
        self.assertIn("no move of a single process makes it cheaper", told)

    def test_closed_machines_stay_empty(self):
        """From INITIAL a list would be cheaper that has process 0 on the closed machine again."""
        put("drained", MODEL)
        put("start", "0 2\n")
        for best in ("1 3\n", "1 2\n"):
            put("best", best)
            self.expect(0, "improve", "drained", "start", "--closed", "closed", "--out", "best", "--tries", 2000)
            self.assertFalse({"0", "2"} & set(text_of("best").split()))
        self.expect(0, "improve", "drained", "start", "--closed", "closed", "--out", "staying", "--tries", 2000)
        self.assertRegex(text_of("staying"), "^0 [13]\n$")

    def test_fleet(self):
        """The folder of `named pack` has the model, the start, the closed machines and the names."""
        fleet = os.path.join(ROOT, "examples", "fleet")
        self.assertEqual(run(tool_path("named"), "pack", fleet, "packed").returncode, 0)
        put("packed/closed", "0 1 2\n")
        self.expect(0, "improve", "packed", "--out", "better", "--tries", 20_000)
        self.assertTrue(self.is_feasible("packed/model", "packed/initial", "better", "--closed", "packed/closed"))
        entered = {now for home, now in zip(text_of("packed/initial").split(), text_of("better").split()) if home != now}
        self.assertFalse(entered & {"0", "1", "2"})
        put("by_name", "node-a1-1\n")
        self.expect(0, "improve", "packed", "--only", "--closed", "by_name", "--out", "unclosed", "--tries", 2000)
        self.assertTrue(self.is_feasible("packed/model", "packed/initial", "unclosed"))

    def test_several_machines(self):
        """Each command makes a list of its own, and the cheapest is taken. A list that breaks a rule is passed over."""
        model, initial = self.make_instance("hosts", 20, 100, 3, 1)
        put("names_of_hosts", "alpha\nbeta\n\n")
        words = [model, initial, "--out", "hosts/best", "--tries", 1000]
        commands = self.expect(0, "improve", *words, "--list", "names_of_hosts").splitlines()
        self.assertEqual(len(commands), 2)
        self.assertEqual(len(self.expect(0, "improve", *words, "--list", 3).splitlines()), 3)
        for command in commands:
            ran = run("sh", "-c", command, cwd="/")
            self.assertEqual(ran.returncode, 0, ran.stderr)
        self.assertFalse(os.path.exists("hosts/best"))
        told = self.expect(0, "improve", *words, "--collect")
        costs = [self.cost(model, initial, f"hosts/best.{host}") for host in (1, 2)]
        self.assertEqual(self.cost(model, initial, "hosts/best"), min(costs))
        self.assertIn(f"cost {min(costs)}\n", told)
        put("hosts/best.3", " ".join(["0"] * 100) + "\n")
        self.expect(11, "improve", *words, "--collect")
        self.assertEqual(self.cost(model, initial, "hosts/best"), min(costs))

    def test_call(self):
        """What a notebook calls."""
        from reassign_tools import Problem, improve
        found = improve("model", [0, 3, 0], "called", tries=400)
        self.assertEqual((found.costs.cost, self.cost("model", "initial", "called"), found.start), (2411, 2411, 4200))
        self.assertEqual(found.moved, sum(a != b for a, b in zip(found.assignment, [0, 3, 0])))
        for words in ({"tries": 1, "workers": 17}, {"tries": 0}, {"closed": "called", "tries": 1, "seed": -1}):
            with self.assertRaises(Problem) as raised:
                improve("model", "initial", "called", **words)
            self.assertEqual(raised.exception.status, 2)

    def test_two_calls(self):
        """The second call of one --out is refused as long as the first runs."""
        words = ["model", "initial", "--out", "shared"]
        put_slow_program("slow", "true", ANNEAL)
        first = begin("improve", *words, "--anneal", os.path.abspath("slow"))
        self.addCleanup(first.communicate)
        self.addCleanup(first.kill)
        self.wait_for(lambda: os.path.exists("slow.runs"), first)
        self.expect(7, "improve", *words)
        first.send_signal(signal.SIGINT)
        printed, error = first.communicate()
        self.assertEqual((first.returncode, printed.splitlines()[0]), (0, "cost 4200"), error)
        self.assertIn("improve: stopped; shared has the best list so far", error)
        self.expect(0, "improve", *words, "--tries", 100)
        self.assertFalse(os.path.exists("shared.lock"))
