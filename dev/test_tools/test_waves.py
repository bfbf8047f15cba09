"""Moves in waves: the list after each breaks no rule, and costs what is told."""
import csv
import io
import json

from common import program, put
from fleet_cases import EXAMPLE, FleetCase
from reassign_tools.files import read_list
from reassign_tools.models import Model

# Two full machines that exchange, and a third one that one of the processes can wait on.
EXCHANGE = "1 0 1\n3\n0 0 10 10 0 0 0\n0 1 10 10 0 0 0\n0 2 10 10 0 0 0\n2 1 0 1 0\n2 0 10 0 1 9 0\n0\n0 0 0\n"


class Waves(FleetCase):
    @classmethod
    def setUpClass(cls):
        super().setUpClass()
        cls.hall = cls.make_instance(cls(), "hall", 30, 240, 3, 2)
        _, report = program("solve", *cls.hall, "5:20000")
        put("hall_new", next(line for line in report.splitlines() if line.startswith("assignment "))[11:])

    def tearDown(self):
        pass

    def runTest(self):
        """For setUpClass."""

    def waves(self, status, *words):
        return json.loads(self.expect(status, "moves", *words, "--json"))

    def test_every_wave_is_feasible(self):
        """Each wave has at most so many moves, of a service at most so many; the list after it breaks no rule, and costs what is
        told; and the last one is the new list, without what brings nothing."""
        model, start = Model.read(self.hall[0]), read_list(self.hall[1])
        found = self.waves(0, *self.hall, "hall_new")
        whole = {(one["process"], one["to"]) for one in found["moves"]}
        for most, per_service in ((1, 1), (5, 1), (7, 2), (1000, 1000)):
            told = self.waves(0, *self.hall, "hall_new", "--waves", most, "--per-service", per_service, "--out", "out")
            now, costs = list(start), []
            for wave in told["waves"]:
                services = [model.service[int(one["process"])] for one in wave["moves"]]
                self.assertLessEqual(len(services), most)
                self.assertLessEqual(max(map(services.count, services)), per_service)
                for one in wave["moves"]:
                    self.assertEqual(now[int(one["process"])], int(one["from"]))
                    now[int(one["process"])] = int(one["to"])
                put("now", " ".join(map(str, now)))
                costs.append(self.cost(*self.hall, "now"))
            self.assertEqual([wave["cost_after"] for wave in told["waves"]], costs)
            self.assertEqual((told["in_no_wave"], now), ([], read_list("out")))
            self.assertEqual({(one["process"], one["to"]) for one in told["moves"]}, whole)
            self.assertEqual(told["cost_after"], found["cost_after"])
        self.assertEqual(len(told["waves"]), 1)

    def test_the_cost_falls_early(self):
        """The first wave brings no less than any one move does, and the first half of the waves most of the way."""
        told = self.waves(0, *self.hall, "hall_new", "--waves", 5)
        costs = [told["cost_before"], *(wave["cost_after"] for wave in told["waves"])]
        one = self.waves(0, *self.hall, "hall_new", "--at-most", 1)
        self.assertLessEqual(costs[1], one["cost_after"])
        self.assertLess(costs[len(costs) // 2] - costs[-1], (costs[0] - costs[-1]) / 3)

    def test_exchange(self):
        put("exchange", EXCHANGE)
        put("one", "0 1\n")
        put("two", "1 0\n")
        words = ["exchange", "one", "two"]
        put("exchange", EXCHANGE.replace("0 0 10 10 0 0 0", "0 0 10 0 0 0 0"))
        told = self.expect(11, "moves", *words, "--waves", 1, "--out", "out")
        self.assertIn("in no wave: process 0 of service 0 from 0 to 1: capacity 1 0 19 10\n"
                      "in no wave: process 1 of service 1 from 1 to 0: capacity 0 0 19 10\n", told)
        self.assertEqual(read_list("out"), [0, 1])
        self.assertIn("in 1 wave:", self.expect(0, "moves", *words, "--waves", 2))
        rows = list(csv.reader(io.StringIO(self.expect(0, "moves", *words, "--waves", 1, "--through", "--csv", "--out", "out"))))
        self.assertEqual([row[:5] for row in rows], [["wave", "process", "service", "from", "to"], ["1", "0", "0", "0", "2"],
                                                     ["2", "1", "1", "1", "0"], ["3", "0", "0", "2", "1"]])
        self.assertEqual(read_list("out"), [1, 0])
        put("closing", "2\n")
        self.expect(11, "moves", *words, "--waves", 1, "--through", "--closed", "closing")

    def test_names(self):
        self.named("pack", EXAMPLE, "packed")
        _, report = program("solve", "packed/model", "packed/initial", "1:20000")
        put("solved", report)
        told = self.expect(0, "moves", "packed/model", "packed/initial", "solved", "--names", "packed/names.json", "--waves", 2)
        self.assertRegex(told, r"(?m)^wave +process +service +from +to +cpu +memory$")
        self.assertRegex(told, r"(?m)^wave 1: 2 moves, cost [\d,]+ after it$")

    def test_words(self):
        self.expect(2, "moves", *self.hall, "hall_new", "--waves", 0)
        self.expect(2, "moves", *self.hall, "hall_new", "--per-service", 1)
        self.expect(2, "moves", *self.hall, "hall_new", "--through")
        self.expect(2, "moves", *self.hall, "hall_new", "--waves", 3, "--curve")
        self.assertIn(" in 0 waves: ", self.expect(0, "moves", *self.hall, self.hall[1], "--waves", 3))
