"""The calls that a notebook imports."""
import array
import contextlib
import importlib
import inspect
import io
import json
import os
import pathlib
from dataclasses import asdict

import reassign_tools
from common import LOTS, PROGRAM, ROOT, ToolCase, program, put, text_of
from fleet_cases import FILES, FleetCase
from reassign_tools import Fleet, Model, Problem, bound, check, evacuate, moves, plot, race, repair, solve, summary, verify
from reassign_tools.__main__ import TOOLS
from reassign_tools.files import read_list


class Calls(ToolCase):
    def expect_problem(self, status, line, call, *words, **how):
        with self.assertRaises(Problem) as raised:
            call(*words, **how)
        self.assertEqual((raised.exception.status, raised.exception.line), (status, line))

    def test_check(self):
        for model in ("model", Model.read("model")):
            for initial in ("initial", [0, 3, 0]):
                costs = check(model, initial, [0, 2, 1], program=PROGRAM)
                self.assertEqual((costs.cost, costs.load, costs.process, costs.machine), (2411, 400, 101, 300))
                self.assertEqual(check(model, initial, program=PROGRAM).cost, 4200)
        found = check("model", "initial", "new", closed=[3], program=PROGRAM)
        self.assertEqual(found.cost, 3510)

    def test_refusals(self):
        self.expect_problem(3, "read fault: nowhere", check, "nowhere", "initial", program=PROGRAM)
        self.expect_problem(6, "infeasible: crowded: conflict 0 0", check, "model", "initial", "crowded", program=PROGRAM)
        self.expect_problem(6, "infeasible: new: closed 1 2", check, "model", "initial", "new", closed="closed2", program=PROGRAM)
        self.expect_problem(9, "wrong line 30", verify, "model", "initial", "cut", ["7:10", (8, 10)], program=PROGRAM)
        with self.assertRaises(Problem) as raised:
            solve("model", "initial", ["nonsense"], program=PROGRAM)
        self.assertEqual(raised.exception.status, 2)
        with self.assertRaises(Problem) as raised:
            check("model", "initial", program="nowhere")
        self.assertEqual(raised.exception.status, 3)

    @classmethod
    def setUpClass(cls):
        super().setUpClass()
        put("closed2", "2\n")
        put("cut", text_of("report")[:-1])

    def test_solve_and_verify(self):
        solved = solve("model", [0, 3, 0], [(4, 5)], report="solved", program=PROGRAM)
        self.assertEqual((solved.costs.cost, solved.bound, solved.best_at, solved.assignment), (2411, 1300, 5, [0, 2, 1]))
        self.assertEqual(verify("model", "initial", "solved", ["4:5"], program=PROGRAM), 5)
        options = {"slack": 500, "closed": [2], "draws": 1, "program": PROGRAM}
        solved = solve(Model.read("model"), "initial", ["4:6"], report="solved", **options)
        self.assertEqual((solved.costs.cost, solved.assignment), (4200, [0, 3, 0]))
        self.assertEqual(verify("model", [0, 3, 0], "solved", [(4, 6)], **options), 6)
        self.expect_problem(9, "wrong line 15", verify, "model", "initial", "solved", ["4:6"], slack=500, closed=[2], program=PROGRAM)

    def test_model(self):
        """A model is read and written again as it was."""
        model = Model.read("model")
        self.assertEqual(b" ".join(b"".join(model.pieces()).split()), " ".join(text_of("model").split()).encode())
        self.assertEqual((model.resources, model.machines, model.services, model.processes), (2, 4, 2, 3))
        for initial, now in ((["initial"] * 2), ("initial", "new")):
            lists = read_list(initial), read_list(now)
            self.assertEqual(model.cost(*lists), check("model", initial, now, program=PROGRAM).cost)
        self.expect_problem(4, "cut_model ends too early", Model.read, "cut_model")
        put("letters", "2 1 x\n")
        self.expect_problem(4, "letters has something that is no number", Model.read, "letters")
        self.expect_problem(3, "folder: Is a directory", Model.read, "folder")

    def test_bound_and_repair(self):
        found = bound("model", [0, 3, 0])
        self.assertEqual(program("bound", "model", "initial"), (0, f"bound {found.bound}\nload {found.load}\nbalance {found.balance}\n"))
        found, told = repair("model", "crowded"), []
        self.assertTrue(found.is_feasible)
        self.assertEqual(check("model", found.assignment).process, 0)
        self.assertEqual(repair("model", [0, 0, 0], seed=2, progress=told.append).is_feasible, True)
        self.assertTrue(all(isinstance(line, str) for line in told) and told)
        stuck = repair("model", [0, 3, 3], turns=1, idle=1, closed=[0, 1, 2, 3])
        self.assertEqual((stuck.is_feasible, stuck.rule[0]), (False, "transient"))

    def test_evacuate(self):
        """The call gives what the tool tells."""
        self.expect(11, "evacuate", "model", "initial", "closed", "--out", "emptied")
        with open("closed", encoding="utf-8") as file:
            closed = set(map(int, file.read().split()))
        found = evacuate("model", [0, 3, 0], closed)
        self.assertEqual(found.assignment, read_list("emptied"))
        self.assertEqual(found.costs, check("model", "initial", "emptied", closed=closed))
        self.assertEqual(found.staying, [p for p, machine in enumerate(found.assignment) if machine in closed])

    def test_moves(self):
        """The call gives what the tool tells."""
        for words, options in (([], {}), (["--at-most", 1], {"at_most": 1}), (["--waves", 1], {"waves": 1}), (["--curve"], {"curve": True})):
            told = json.loads(self.expect(0, "moves", "model", "initial", "new", "--json", *words))
            found = moves("model", [0, 3, 0], "new", **options)
            self.assertEqual((found.cost_before, found.cost, found.cost_of_new), (told["cost_before"], told["cost_after"], told["cost_of_new"]))
            self.assertEqual([(str(one.process), str(one.start), str(one.end)) for one in found.moves],
                             [(one["process"], one["from"], one["to"]) for one in told["moves"]])
            self.assertEqual([asdict(one) for one in found.curve], told.get("curve", []))
            self.assertEqual([wave.cost for wave in found.waves], [wave["cost_after"] for wave in told.get("waves", [])])
            self.assertEqual(check("model", "initial", found.assignment).cost, found.cost)

    def test_summary(self):
        for given in ("report", "new", read_list("new")):
            told = json.loads(self.expect(0, "summary", given if isinstance(given, str) else "new", "model", "initial", "--json"))
            found = summary(given, "model", "initial")
            self.assertEqual((found.sentence, asdict(found.start), asdict(found.end), found.bound, found.way_left),
                             (told["sentence"], told["start"], told["end"], told["bound"], told["way_left"]))
            self.assertEqual([asdict(one) for one in found.resources], told["resources"])
            self.assertEqual([asdict(one) for one in found.fullest_after], told["fullest_after"])
            self.assertEqual([asdict(one) for one in found.workers], told.get("workers", []))
            self.assertEqual(found.best_at, told.get("best_at"))
        self.assertEqual(summary("report", "model", "initial", lots=LOTS).entries, 20)
        with self.assertRaises(Problem) as raised:  # at the second worker's first entry, wherever that is
            summary("report", "model", "initial", lots=LOTS[:1])
        self.assertEqual(raised.exception.status, 9)
        self.assertRegex(raised.exception.line, r"^wrong line \d+$")

    def test_plot(self):
        for words in (["report"], ["report", "model", "initial"], ["new", "model", "initial"]):
            self.assertEqual(plot(*words), self.expect(0, "plot", *words))
        picture = plot([0, 2, 1], Model.read("model"), [0, 3, 0])
        self.assertEqual(picture, plot((0, 2, 1), Model.read("model"), [0, 3, 0]))
        self.assertIn("<title>the machines, before and after</title>", picture)
        self.assertNotIn("reassign-tools-", picture)
        self.expect_problem(2, "new is a list, of which the machines are drawn, with MODEL and INITIAL", plot, "new")

    def test_arguments(self):
        """Whatever an argument can't be is told by its name."""
        types = [
            (check, ("model", {0: 0, 1: 3}), {}, "initial"), (check, ("model", [0, True, 0]), {}, "initial[1]"),
            (check, ("model", [0, 3.0, 0]), {}, "initial[1]"), (check, ("model", {0, 3}), {}, "initial"), (check, (3, [0]), {}, "model"),
            (check, ("model", None), {}, "initial"), (check, (b"model", "initial"), {}, "model"),
            (check, ("model", "initial", ["0"]), {}, "new[0]"), (check, ("model", "initial"), {"closed": 3}, "closed"),
            (check, ("model", "initial"), {"program": 3}, "program"), (bound, ("model", 3), {}, "initial"),
            (solve, ("model", "initial", 3), {}, "lots"), (solve, ("model", "initial", [3]), {}, "lots[0]"),
            (solve, ("model", "initial", [(1, "2")]), {}, "lots[0]"), (solve, ("model", "initial", LOTS), {"slack": "1"}, "slack"),
            (verify, ("model", "initial", 3, LOTS), {}, "report"), (repair, ("model", "initial"), {"seed": None}, "seed"),
            (moves, ("model", "initial", "new"), {"at_most": "1"}, "at_most"), (moves, ("model", "initial", "new"), {"only": 1}, "only"),
            (summary, ("new", "model", "initial"), {"top": 1.5}, "top"), (summary, ("new", "model", "initial"), {"rules": "no"}, "rules"),
            (plot, ("report",), {"title": 3}, "title"), (race, ("x",), {"seconds": [1]}, "instances"),
            (race, (["x"],), {"seconds": ["1"]}, "seconds"), (Fleet.of, ({}, [], []), {}, "machines"),
            (Fleet.of, ([], [3], []), {}, "services[0]"), (Fleet.of, ([], [], [{"cpu": True}]), {}, "processes[0]['cpu']"),
        ]
        values = [
            (check, ("model", [-1]), {}, "initial[0]"), (check, ("model", [2**32]), {}, "initial[0]"), (check, ("", "initial"), {}, "model"),
            (check, ("model", "a\0b"), {}, "initial"), (solve, ("model", "initial", []), {}, "lots"),
            (solve, ("model", "initial", [(1, 2, 3)]), {}, "lots[0]"), (solve, ("model", "initial", [(1, 10**7)]), {}, "lots[0]"),
            (solve, ("model", "initial", LOTS), {"draws": 3}, "draws"), (repair, ("model", "initial"), {"turns": 0}, "turns"),
            (moves, ("model", "initial", "new"), {"waves": 0}, "waves"), (moves, ("model", "initial", "new"), {"through": True}, "waves"),
            (summary, ("new", "model", "initial"), {"top": 0}, "top"), (plot, ("report", "model"), {}, "model"),
            (race, (["x"],), {"seconds": [0]}, "seconds"), (Fleet.of, ([], [], [{"cpu": -1}]), {}, "processes[0]['cpu']"),
        ]
        for error, cases in ((TypeError, types), (ValueError, values)):
            for call, words, options, name in cases:
                with self.assertRaises(error, msg=(call, words, options)) as raised:
                    call(*words, **options)
                self.assertTrue(str(raised.exception).startswith(name), raised.exception)

    def test_numbers_and_names(self):
        """Whatever says that it is a whole number is one, in whatever has an order; a name may be a path; nothing is printed."""
        class Whole:
            def __index__(self):
                return 3
        with contextlib.redirect_stdout(io.StringIO()) as printed, contextlib.redirect_stderr(printed):
            for initial in ([0, Whole(), 0], (0, 3, 0), array.array("I", [0, 3, 0]), pathlib.Path("initial"), map(int, "030")):
                self.assertEqual(check(pathlib.Path("model"), initial).cost, 4200)
            self.assertEqual(check("model", "initial", "new", closed={3}).cost, check("model", "initial", "new", closed=[3]).cost)
        self.assertEqual(printed.getvalue(), "")
        self.expect_problem(6, "infeasible: new: conflict 0 0", check, "model", [0, 3, 0], [0, 0, 0])
        put("-model", text_of("model"))
        self.assertEqual(check("-model", "initial").cost, 4200)

    def test_documented(self):
        """Each call, each tool and each module says what it is for."""
        for name, thing in vars(reassign_tools).items():
            if callable(thing):
                self.assertTrue(inspect.getdoc(thing), name)
        folder = os.path.join(ROOT, "python", "reassign_tools")
        for name in os.listdir(folder):
            if name.endswith(".py") and name != "__main__.py":
                self.assertTrue(importlib.import_module(f"reassign_tools.{name[:-3]}").__doc__, name)
        for tool in TOOLS:
            module = importlib.import_module(f"reassign_tools.{tool}")
            self.assertTrue(callable(module.main) and module.parser().prog == tool)

    def test_length(self):
        """No module has more than 700 lines."""
        for at, _, names in os.walk(os.path.join(ROOT, "python")):
            for name in names:
                if name.endswith(".py"):
                    self.assertLessEqual(text_of(os.path.join(at, name)).count("\n"), 700, name)


class Fleets(FleetCase):
    def rows(self, file):
        """The rows of a table of the small fleet."""
        header, *rows = [line.split(",") for line in FILES[file].splitlines()]
        return [dict(zip(header, row)) for row in rows]

    def test_of(self):
        """A fleet of dicts is that of the tables that they make."""
        tables = [self.rows(file) for file in ("machines.csv", "services.csv", "processes.csv")]
        settings = {"resource": [{"name": "cpu", "unit": "1m"}, {"name": "memory", "unit": "1Mi", "transient": True}]}
        found, read = Fleet.of(*tables, settings), Fleet.read("fleet")
        self.assertEqual((found.machines, found.services, found.processes), (read.machines, read.services, read.processes))
        self.assertEqual(b"".join(found.model().pieces()), b"".join(read.model().pieces()))
        self.pack()
        self.assertEqual(b"".join(found.model().pieces()), text_of("packed/model").encode())
        self.assertEqual(found.names().model_sha256, json.loads(text_of("packed/names.json"))["model_sha256"])
        self.assertEqual(check(found.model(), found.initial, closed=found.closed), check("packed/model", "packed/initial"))
        named = summary(found.initial, found.model(), found.initial, names=found.names())
        self.assertEqual([one.resource for one in named.resources], ["cpu", "memory"])

    def test_cells(self):
        """A cell is a text, a number, nothing, or a list of names."""
        machines = [{"machine": "a", "zone": "z", "rack": "r", "cpu": 1.5, "memory": 2**31}, {"machine": "b", "zone": "z", "rack": "s", "cpu": 3,
                                                                                          "memory": "2Gi", "state": "closed"}]
        services = [{"service": "one", "spread": None, "depends_on": ["two"]}, {"service": "two", "cpu": 0.25, "memory": "1Mi"}]
        processes = [{"process": "p", "service": "one", "machine": "a", "cpu": 0.5, "memory": 0}, {"process": "q", "service": "two", "machine": "a"}]
        ways = [{"from": "r", "to": "s", "cost": 7}]
        fleet = Fleet.of(machines, services, processes, {"move_cost": 4, "weights": {"process": 2}}, ways)
        self.assertEqual((fleet.initial, fleet.closed, fleet.services[0].depends_on), ([0, 0], [1], [1]))
        self.assertEqual([one.requirement[0] for one in fleet.processes], [500, 250])
        self.assertEqual((fleet.machines[0].capacity, fleet.machines[1].capacity), ([1500, 2048], [3000, 2048]))
        model = fleet.model()
        self.assertEqual((model.move_cost, model.weights[0], list(model.way_costs(0))), ([4, 4], 2, [0, 7]))
        with self.assertRaises(Problem) as raised:
            Fleet.of(machines, services, [{"process": "p", "service": "on", "machine": "a"}])
        self.assertEqual(raised.exception.lines[0], "processes.csv:2: process 'p': no service 'on' (is it 'one'?); column 2 'service'")
