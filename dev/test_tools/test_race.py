"""race: instances by patterns, solvers of any kind, folders for other hosts."""
import csv
import json
import os
import shutil
import signal
import unittest.mock

from common import PROGRAM, ToolCase, begin, program, put, run, text_of

COPY = "copy: cp {initial} {new} --backup=none -S {model}"
SHELL = "sh -c '{script}' sh {{model}} {{initial}} {{new}}"


def solver(name, script):
    """A solver that is a line of the shell: $1, $2 and $3 are the model, the start and the new list."""
    return f"{name}: {SHELL.format(script=script)}"


def rows_of(name):
    with open(name, newline="", encoding="utf-8") as file:
        return list(csv.DictReader(file))


class Race(ToolCase):
    @classmethod
    def setUpClass(cls):
        super().setUpClass()
        os.mkdir("data")
        for name, seed in (("a", 1), ("b", 2)):
            model, initial = cls.make_instance(cls(), f"made_{name}", 20, 100, 3, seed)
            shutil.copy(model, f"data/model_{name}.txt")
            shutil.copy(initial, f"data/assignment_{name}.txt")

    def race(self, status, *words, **how):
        return self.expect(status, "race", *words, begun=True, **how)

    def test_rows(self):
        told = self.race(0, "--instances", "data/model_*.txt", "made_b", "--seeds", "1-2,5", "--slack", "0,20", "--proposals",
                         "50,200", "--jobs", 2, "--csv", "rows.csv", "--json", "rows.json", "--curves", "curves.svg")
        rows = rows_of("rows.csv")
        self.assertEqual(len(rows), 3 * 3 * 2 * 2)
        self.assertEqual({row["instance"] for row in rows}, {"a", "b", "made_b"})
        self.assertEqual({row["feasible"] for row in rows}, {"True"})
        chosen = next(row for row in rows if (row["instance"], row["seed"], row["slack"], row["budget_proposals"]) == ("a", "5", "20", "200"))
        _, report = program("solve", "data/model_a.txt", "data/assignment_a.txt", "--slack", 20, "5:200")
        self.assertEqual(chosen["cost"], report.split()[1])
        objects = json.loads(text_of("rows.json"))
        self.assertEqual([str(one["cost"]) for one in objects], [row["cost"] for row in rows])
        self.assertTrue(all(one["curve"][0][1] == one["start"] and one["curve"][-1][1] == one["cost"] for one in objects))
        self.assertTrue(text_of("curves.svg").endswith("</svg>\n"))
        self.assertEqual(sum(line.startswith("| a |") for line in told.splitlines()), 1 + 4, told)

    def test_solvers(self):
        crowd = solver("crowd", "sed s/[0-9]*/0/g $2 > $3")
        told = self.race(0, "--instances", "made_a", "--proposals", 100, "--csv", "rows.csv", "--solver", solver("same", "cp $2 $3"),
                         "--solver", crowd, "--solver", solver("fails", "exit 3"), "--solver", solver("silent", "true"), "--solver",
                         solver("junk", "echo junk > $3"), "--solver", solver("tells", "echo proposals 7; echo at 0.5 9; cp $2 $3"),
                         "--solver", solver("leaves", "sleep 600 & cp $2 $3"), "--solver", "none: ./nowhere {model} {initial} {new}",
                         "--solver", solver("killed", "kill -9 $$"))
        rows = {row["solver"]: row for row in rows_of("rows.csv")}
        start = rows["same"]["start"]
        self.assertEqual((rows["same"]["cost"], rows["same"]["left"], rows["same"]["feasible"]), (start, "1", "True"))
        for name, fault in (("crowd", "infeasible"), ("fails", "status 3"), ("silent", "no list"), ("junk", "bad assignment"),
                            ("none", "nowhere")):
            self.assertEqual((rows[name]["feasible"], rows[name]["cost"]), ("False", ""))
            self.assertIn(fault, rows[name]["fault"])
        self.assertEqual({name: row["outcome"] for name, row in rows.items()}, {
            "reassign": "feasible", "same": "feasible", "crowd": "infeasible", "fails": "crash", "silent": "no list", "junk": "no list",
            "tells": "feasible", "leaves": "feasible", "none": "crash", "killed": "crash"})
        heads, *lines = [line.split(" | ") for line in told.splitlines() if line.startswith(("| instance | proposals", "| made_a | 100"))]
        self.assertEqual(heads[-3:], ["infeasible", "no list", "crash |"])
        self.assertEqual({tuple(line[-3:]) for line in lines if line[2] in ("crowd", "silent", "none")},
                         {("1", "0", "0 |"), ("0", "1", "0 |"), ("0", "0", "1 |")})
        self.assertEqual((rows["tells"]["proposals"], rows["tells"]["feasible"]), ("7", "True"))
        self.assertEqual(rows["leaves"]["cost"], start)
        self.assertIn("infeasible", told)

    def test_anneal(self):
        """By the clock `anneal` is our solver, and beside runs of `solve` it has their time."""
        self.race(0, "--instances", "made_a", "--seconds", "0.5", "--csv", "rows.csv")
        self.assertEqual([(row["solver"], row["feasible"]) for row in rows_of("rows.csv")], [("anneal", "True")])
        self.race(0, "--instances", "made_a", "--proposals", 5000, "--solver", "anneal", "--csv", "rows.csv")
        solve, anneal = rows_of("rows.csv")
        self.assertEqual((solve["solver"], anneal["solver"], anneal["feasible"]), ("reassign", "anneal", "True"))
        self.assertAlmostEqual(float(anneal["budget_seconds"]), float(solve["processor"]) - float(solve["reading"]), delta=0.01)

    def test_folder(self):
        words = ["--instances", "made_a", "--seeds", "1-4", "--proposals", 50, "--folder", "kept", "--csv", "rows.csv"]
        self.race(0, *words)
        before = rows_of("rows.csv")
        os.unlink("kept/results/2.json")
        stays = os.stat("kept/results/1.json").st_mtime_ns
        self.race(0, *words)
        self.assertEqual([row["cost"] for row in rows_of("rows.csv")], [row["cost"] for row in before])
        self.assertEqual(os.stat("kept/results/1.json").st_mtime_ns, stays)
        self.race(2, *words[:-1], "other.csv", "--slack", 7)
        self.race(2, *words[:6], "--folder", "data")

    def test_list(self):
        words = ["--instances", "made_a", "--seeds", "1-5", "--proposals", 60]
        self.race(0, *words, "--list", "commands", "--folder", "far")
        commands = text_of("commands").splitlines()
        self.assertEqual(len(commands), 5)
        os.rename("far", "copied")
        for command in commands[:3]:
            ran = run("sh", "-c", command, env={**os.environ, "RACE": os.path.abspath("copied"), "REASSIGN": "/nowhere"})
            self.assertEqual(ran.returncode, 0, ran.stderr)
        os.rename("copied", "far")
        put("far/results/1.list", text_of("made_a/initial").replace("1", "0"))
        told = self.race(11, "--collect", "far", "--csv", "rows.csv", "--list", "rest")
        self.assertIn("infeasible", told)
        self.assertEqual([row["feasible"] for row in rows_of("rows.csv")], ["True", "False", "True"])
        self.assertEqual(text_of("rest").splitlines(), commands[3:])
        for command in text_of("rest").splitlines():
            self.assertEqual(run("sh", "-c", command).returncode, 0)
        os.unlink("far/results/1.json")
        self.assertEqual(run("sh", "-c", commands[1]).returncode, 0)
        self.race(0, "--collect", "far", "--csv", "far.csv")
        self.race(0, *words, "--csv", "near.csv")
        self.assertEqual([row["cost"] for row in rows_of("far.csv")], [row["cost"] for row in rows_of("near.csv")])

    def test_forged(self):
        """Whatever a host leaves is judged by files that it can't write to."""
        words = ["--instances", "made_b", "--proposals", 60]
        self.race(0, *words, "--list", "commands", "--folder", "hostile")
        self.assertEqual(run("sh", "-c", text_of("commands").strip()).returncode, 0)
        put("hostile/instances/0/model", "0")
        self.race(0, "--collect", "hostile")
        plan = json.loads(text_of("hostile/plan.json"))
        plan["instances"][0]["model"] = os.path.abspath("made_a/model")
        put("hostile/plan.json", json.dumps(plan))
        self.race(9, "--collect", "hostile")
        self.race(0, "--collect", "hostile", "--instances", "made_b")
        self.race(2, "--collect", "hostile", "--instances", "made_a")
        put("hostile/plan.json", "{}")
        self.race(9, "--collect", "hostile")

    def test_outcomes(self):
        """What a run says of itself has to have its form."""
        from reassign_tools import Problem
        from reassign_tools.race_runs import read_outcome
        for text in ("", "[]", "{", '{"seconds": "x"}', '{"seconds": -1}', '{"curve": [[1]]}', '{"curve": 5}', '{"seconds": 1e999}',
                     '{"host": 5}', '{"more": 1}', '{"curve": [["x", 1]]}', '{"proposals": []}'):
            put("outcome", text)
            with self.assertRaises(Problem, msg=text):
                read_outcome("outcome")
        put("outcome", '{"seconds": 2, "curve": [[1, 5], [2, 4]]}')
        self.assertEqual(read_outcome("outcome").curve, [(1, 5), (2, 4)])

    def refused(self, status, *words):
        """Words of which no plan is made."""
        from reassign_tools import Problem
        from reassign_tools.race import parser, plan_of
        with self.assertRaises(Problem, msg=words) as refused:
            plan_of(parser().parse_args(list(map(str, words))))
        self.assertEqual(refused.exception.status, status)

    def test_refusals(self):
        good = ["--instances", "made_a", "--proposals", 50]
        for words in (["--proposals", 50], ["--instances", "made_a"], [*good, "--seconds", 1], [*good, "--seeds", "3-1"],
                      [*good, "--seeds", "x"], [*good, "--slack", "1-2-3"], [*good, "--slack", "auto"], ["--instances", "made_a", "--proposals", 1_000_001],
                      ["--instances", "made_a", "--seconds", 1, "--slack", 3], [*good, "--solver", "x"],
                      [*good, "--solver", "x: a {model} {initial}"], [*good, "--solver", "x: a {model} {initial} {new} {more}"],
                      [*good, "--solver", "x: 'a {model} {initial} {new}"], [*good, "--solver", COPY, "--solver", COPY],
                      [*good, "--solver", COPY.replace("copy", "reassign")], ["--instances", "made_a", "--proposals", 0],
                      ["--instances", "made_a", "--seconds", "0"]):
            self.refused(2, *words)
        self.refused(3, "--instances", "data/nothing_*", "--proposals", 50)
        self.refused(3, "--instances", "data/model_a.txt", "nowhere", "data/assignment_a.txt", "--proposals", 50)
        self.expect(2, "race", *good, "--run", 1)
        self.expect(2, "race", *good, "--csv", "made_a/model")
        self.expect(2, "race", *good, "--csv", "x", "--json", "x")
        self.expect(3, "race", "--collect", "nowhere")
        self.expect(6, "race", "--instances", self.broken(), "--proposals", 50)
        self.assertEqual(text_of("made_a/model").split()[0], "3")

    def broken(self):
        """An instance with a start that breaks rules."""
        os.makedirs("broken", exist_ok=True)
        shutil.copy("model", "broken/model")
        shutil.copy("crowded", "broken/initial")
        return "broken"

    def test_stopped(self):
        waits = solver("waits", "sleep 600") + " {seconds}"
        race = begin("race", "--instances", "made_a", "--seeds", "1-3", "--proposals", 50, "--solver", waits, "--csv", "rows.csv")
        for line in race.stderr:
            if "reassign" in line and "seed 3" in line:
                break
        race.send_signal(signal.SIGINT)
        printed, error = race.communicate()
        self.assertEqual(race.returncode, 130, error)
        self.assertIn("stopped after 3 of 6 runs", error)
        self.assertIn("| made_a |", printed)
        self.assertEqual(len(rows_of("rows.csv")), 3)

    def test_stopped_run_is_none(self):
        """A run that was stopped is run again, and leaves nothing among temporary files."""
        put("first", "1")
        # It waits if it is called for the first time, and leaves a list then too.
        waits = solver("waits", "cp $2 $3; test -e once || { touch once; mktemp -d; sleep 600; }") + " {seconds}"
        words = ["--instances", "made_a", "--seeds", "1", "--seconds", "1", "--solver", waits, "--folder", "goes_on"]
        os.makedirs("tmp", exist_ok=True)
        with unittest.mock.patch.dict(os.environ, TMPDIR=os.path.abspath("tmp")):
            for by in (signal.SIGINT, signal.SIGTERM):
                shutil.rmtree("goes_on", ignore_errors=True)
                if os.path.exists("once"):
                    os.unlink("once")
                race = begin("race", *words)
                self.wait_for(lambda: os.path.exists("once"), race)
                race.send_signal(by)
                _, error = race.communicate()
                self.assertEqual(race.returncode, 128 + by, error)
                self.assertFalse(os.path.exists("goes_on/results/1.json"))
                self.assertEqual([name for name in os.listdir("tmp") if name.startswith("reassign-tools-")], [])
                told = self.race(0, *words, "--csv", "rows.csv")
                self.assertEqual([row["outcome"] for row in rows_of("rows.csv")], ["feasible"] * 2, told)

    def test_stopped_improve(self):
        os.makedirs("tmp", exist_ok=True)
        with unittest.mock.patch.dict(os.environ, TMPDIR=os.path.abspath("tmp")):
            race = begin("race", "--instances", "made_a", "--seconds", "3000", "--folder", "half")
            self.wait_for(lambda: os.path.exists("half/results/0.list"), race)
            race.send_signal(signal.SIGINT)
            _, error = race.communicate()
            self.assertEqual(race.returncode, 130, error)
            self.assertFalse(os.path.exists("half/results/0.json"))
            self.assertEqual([name for name in os.listdir("tmp") if name.startswith("reassign-tools-")], [])

    def test_call(self):
        from reassign_tools import Problem, race
        rows = race(["made_a"], seeds=[1, 2], proposals=[60], solvers={"same": "cp {initial} {new} --suffix {model}"}, program=PROGRAM)
        self.assertEqual([(row.solver, row.feasible) for row in rows], [("reassign", True), ("same", True)] * 2)
        with self.assertRaises(Problem):
            race(["nowhere"], proposals=[60], program=PROGRAM)
        with self.assertRaises(Problem):
            race(["made_a"], program=PROGRAM)
