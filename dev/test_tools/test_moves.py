"""Moves between two lists: what brings nothing is left out, and each list is feasible."""
import csv
import io
import json
import os

from common import program, put, text_of
from fleet_cases import EXAMPLE, FleetCase
from reassign_tools import Problem, moves
from reassign_tools.choosing_moves import Choice
from reassign_tools.files import read_list
from reassign_tools.models import Model
from reassign_tools.standing import Standing


class Moves(FleetCase):
    @classmethod
    def setUpClass(cls):
        super().setUpClass()
        cls.hall = cls.make_instance(cls(), "hall", 30, 240, 3, 2)
        _, report = program("solve", *cls.hall, "--slack", 300, "5:20000")
        put("hall_report", report)
        put("hall_new", next(line for line in report.splitlines() if line.startswith("assignment "))[11:])

    def tearDown(self):
        pass

    def runTest(self):
        """For setUpClass."""

    def moves(self, *words):
        return self.expect(0, "moves", *words)

    def test_table(self):
        found = list(csv.reader(io.StringIO(self.moves(*self.hall, "hall_new", "--csv", "--out", "out"))))
        model, start, new = Model.read(self.hall[0]), read_list(self.hall[1]), read_list("hall_new")
        out = read_list("out")
        self.assertEqual(found[0][:4], ["process", "service", "from", "to"])
        expected = [[str(p), str(model.service[p]), str(a), str(b), *map(str, model.required[p])]
                    for p, (a, b) in enumerate(zip(start, out)) if a != b]
        self.assertEqual(found[1:], expected)
        self.assertTrue(expected)
        self.assertTrue(all(machine in (a, b) for machine, a, b in zip(out, start, new)))
        self.assertLessEqual(self.cost(*self.hall, "out"), self.cost(*self.hall, "hall_new"))
        self.assertEqual(self.moves(*self.hall, "hall_report", "--csv"), self.moves(*self.hall, "hall_new", "--csv"))

    def test_what_brings_nothing(self):
        """Processes that wander for nothing on top of good moves go home."""
        model, start, new = Model.read(self.hall[0]), read_list(self.hall[1]), read_list("hall_new")
        worse, cost = list(new), self.cost(*self.hall, "hall_new")
        for p in range(model.processes):
            if worse[p] == start[p] and sum(a != b for a, b in zip(worse, new)) < 5:
                for machine in range(model.machines):
                    put("tried", " ".join(map(str, [*worse[:p], machine, *worse[p + 1:]])))
                    if machine != start[p] and self.is_feasible(*self.hall, "tried"):
                        worse[p] = machine
                        break
        put("worse", " ".join(map(str, worse)))
        self.assertGreater(self.cost(*self.hall, "worse"), cost)
        printed = self.moves(*self.hall, "worse", "--out", "out")
        self.assertIn("left out because they bring nothing: ", printed)
        self.assertLessEqual(self.cost(*self.hall, "out"), cost)

    def test_at_most(self):
        costs, total = [], len(self.moves(*self.hall, "hall_new", "--csv").splitlines()) - 1
        for count in (0, 1, 5, 20, total - 1, total, 50_000):
            found = json.loads(self.moves(*self.hall, "hall_new", "--at-most", count, "--json", "--out", "out"))
            self.assertLessEqual(len(found["moves"]), min(count, total))
            self.assertEqual(self.cost(*self.hall, "out"), found["cost_after"])
            costs.append(found["cost_after"])
        self.assertEqual(costs, sorted(costs, reverse=True))
        self.assertEqual(costs[0], self.cost(*self.hall, self.hall[1]))
        self.assertEqual(costs[-1], costs[-2])
        best = min(self.one_move_costs())
        self.assertEqual(costs[1], best)

    def one_move_costs(self):
        """What the list costs with each of the moves alone, as far as it is feasible then."""
        start, new = read_list(self.hall[1]), read_list("hall_new")
        for p, (a, b) in enumerate(zip(start, new)):
            if a != b:
                put("tried", " ".join(map(str, [*start[:p], b, *start[p + 1:]])))
                if self.is_feasible(*self.hall, "tried"):
                    yield self.cost(*self.hall, "tried")

    def test_curve(self):
        lines = list(csv.reader(io.StringIO(self.moves(*self.hall, "hall_new", "--curve", "--csv"))))
        self.assertEqual(lines[0], ["moves", "cost", "share"])
        counts, costs, shares = zip(*((int(a), int(b), float(c)) for a, b, c in lines[1:]))
        self.assertEqual(list(counts), sorted(counts))
        self.assertEqual(list(costs), sorted(costs, reverse=True))
        self.assertEqual((shares[-1], counts[0] <= 10), (1.0, True))
        found = json.loads(self.moves(*self.hall, "hall_new", "--curve", "--json"))
        self.assertEqual([one["cost"] for one in found["curve"]], list(costs))
        self.assertIn("100.0 %", self.moves(*self.hall, "hall_new", "--curve"))

    def test_exchange(self):
        """Two processes that can only change places go together, or not at all."""
        put("full", "2 0 0 0 1\n2\n0 0 10 20 10 0 0 0\n0 1 10 20 10 20 0 0\n2 1 0 1 0\n2 0 10 8 0 1 10 1 0\n0\n0 0 0\n")
        found = moves("full", [0, 1], [1, 0])
        self.assertEqual((found.cost_before, found.cost, found.assignment), (8, 1, [1, 0]))
        self.assertEqual([(one.process, one.service, one.start, one.end) for one in found.moves], [(0, 0, 0, 1), (1, 1, 1, 0)])
        self.assertEqual(moves("full", [0, 1], [1, 0], at_most=2).cost, 1)
        alone = moves("full", [0, 1], [1, 0], at_most=1)
        self.assertEqual((alone.moves, alone.cost), ([], 8))
        back = moves("full", [1, 0], [0, 1])
        self.assertEqual((back.moves, back.cost, back.assignment), ([], 1, [1, 0]))

    def test_closed_machines_stay_empty(self):
        """Who leaves a closed machine moves, whatever it costs, and first."""
        model, start = self.hall
        put("closing", "0 1\n")
        self.expect(0, "evacuate", model, start, "closing", "--out", "emptied", "--budget", 0, begun=True)
        home, emptied = read_list(start), read_list("emptied")
        leaving = {str(p) for p, (a, b) in enumerate(zip(home, emptied)) if a in (0, 1) and b != a}
        self.assertTrue(leaving)
        found = json.loads(self.moves(model, start, "emptied", "--closed", "closing", "--json", "--out", "out"))
        self.assertLessEqual(leaving, {one["process"] for one in found["moves"]})
        self.assertEqual(found["cost_after"], self.cost(model, start, "out", "--closed", "closing"))
        some = json.loads(self.moves(model, start, "emptied", "--closed", "closing", "--json", "--at-most", len(leaving) // 2))
        self.assertLessEqual({one["process"] for one in some["moves"]}, leaving)
        self.assertEqual(len(some["moves"]), len(leaving) // 2)
        self.moves(model, start, "emptied", "--closed", "closing", "--curve")

    def test_names(self):
        self.named("pack", EXAMPLE, "packed")
        _, report = program("solve", "packed/model", "packed/initial", "1:2000")
        put("solved", report)
        printed = self.moves("packed/model", "packed/initial", "solved", "--names", "packed/names.json")
        self.assertRegex(printed, r"(?m)^process +service +from +to +cpu +memory$")
        self.assertRegex(printed, r"(?m)^[a-z]+-\d+ +[a-z]+ +node-\w+-\d +node-\w+-\d +\d+m? +\d+Gi$")
        self.expect(4, "moves", *self.hall, "hall_new", "--names", "packed/names.json")

    def test_refusals(self):
        model, start = self.hall
        self.expect(6, "moves", "model", "initial", "crowded", "--out", "x")
        self.expect(3, "moves", model, start, "nowhere")
        self.expect(5, "moves", model, start, "initial")
        self.expect(2, "moves", model, start, "hall_new", "--csv", "--json")
        self.expect(2, "moves", model, start, "hall_new", "--at-most", "-1")
        for name in (model, start, "hall_new"):
            before = text_of(name)
            self.expect(2, "moves", model, start, "hall_new", "--out", name)
            self.assertEqual(text_of(name), before)
        put("closed2", "2\n")
        self.expect(6, "moves", "model", "initial", "new", "--closed", "closed2")
        self.assertFalse(os.path.exists("x"))
        with self.assertRaises(Problem):
            moves("model", "initial", "crowded")


class Weighing(FleetCase):
    """The costs and rules that are kept while processes go are those of the definitions."""

    def test_standing(self):
        model, start = self.make_instance("hall", 20, 160, 4, 3)
        _, report = program("solve", model, start, "5:5000")
        new = list(map(int, next(line for line in report.splitlines() if line.startswith("assignment ")).split()[1:]))
        read, start = Model.read(model), read_list(start)
        for begin in (start, new):
            standing = Standing(read, start, new, begin)
            for p in [p for p, (a, b) in enumerate(zip(start, new)) if a != b]:
                cost, grown = standing.cost, standing.leaving(p) + standing.entering(p) + standing.going(p)
                standing.go(p)
                self.assertEqual(standing.cost, read.cost(start, standing.now))
                afresh = Standing(read, start, new, standing.now)
                self.assertEqual((standing.broken, standing.most_moved), (afresh.broken, afresh.most_moved))
                self.assertEqual(grown % 1, 0)
                service = standing.cost - cost - grown
                self.assertIn(service, (0, read.weights[1], -read.weights[1]))

    def test_steps_are_feasible(self):
        model, start = self.make_instance("hall", 20, 160, 4, 3)
        _, report = program("solve", model, start, "5:5000")
        new = list(map(int, next(line for line in report.splitlines() if line.startswith("assignment ")).split()[1:]))
        read, start = Model.read(model), read_list(start)
        choice = Choice(read, start, new, start)
        choice.run(10**6)
        now = list(start)
        for group, cost in choice.steps:
            for p in group:
                now[p] = new[p]
            put("now", " ".join(map(str, now)))
            self.assertEqual(self.cost(model, "hall/initial", "now"), cost)
        self.assertEqual(now, new)
