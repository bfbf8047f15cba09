"""Machines and processes that are told, and taken, by their names."""
import os
import re
import shutil

from common import program, put, run, text_of, tool_path
from fleet_cases import EXAMPLE, FleetCase
from reassign_tools.names import Names, hash_of
from test_evacuate import MODEL

PACKED = "packed/model", "packed/initial"
NAMES = "--names", "packed/names.json"


class ByNames(FleetCase):
    def setUp(self):
        super().setUp()
        self.pack()

    def expect_refusal(self, status, line, tool, *words):
        self.expect_line(status, f"{tool}: {line}", tool_path(tool), *words)

    def put_closed(self, *machines):
        put("closing", "".join(f"{machine}\n" for machine in machines))


class Evacuate(ByNames):
    def test_who_stays(self):
        """web-0 finds no machine: on a2 is web-1, and in zone b is no db."""
        self.put_closed("a1")
        told = self.expect(11, "evacuate", *PACKED, "closing", *NAMES, "--out", "emptied", "--budget", 0)
        self.assertIn("went 1 of 2 processes of 1 closed machine: a1\n", told)
        self.assertIn("process web-0 of service web stays on machine a1: of 2 open machines 1 by conflict, 1 by dependency\n", told)
        self.assertIn("\n  machine a2: conflict web a2\n", told)
        self.assertIn("\n  machine b1: dependency web db b\n", told)

    def test_numbers_and_names(self):
        """Both kinds of a closed list empty the same machines."""
        emptied = []
        for closed in ("0\n", "a1\n", "\ufeffa1\r\n\r\n"):
            with open("closing", "w", encoding="utf-8", newline="") as file:
                file.write(closed)
            self.expect(11, "evacuate", *PACKED, "closing", *NAMES, "--out", "emptied", "--budget", 0)
            emptied.append(text_of("emptied"))
        self.assertEqual(len(set(emptied)), 1)
        told = self.expect(0, "evacuate", *PACKED, "packed/closed", *NAMES, "--out", "emptied")
        self.assertTrue(told.startswith("went 0 of 0 processes of 0 closed machines\n"), told)

    def test_others(self):
        put("tight", MODEL)
        put("start", "0 1 3 3 3 3 3 3 3 3\n")
        count = lambda word, many: [f"{word}{at}" for at in range(many)]
        names = Names(hash_of("tight"), ["cpu", "disk"], [], count("m", 5), [], [], count("s", 10), count("p", 10))
        put("tight.json", names.text())
        self.put_closed("m0")
        told = self.expect(0, "evacuate", "tight", "start", "closing", "--names", "tight.json", "--out", "emptied", "--budget", 3000,
                           "--workers", 1)
        self.assertIn("process p1 of service s1 can't go back to machine m1: capacity m1 disk 11 10\n", told)

    def test_refusals(self):
        self.put_closed("a1", "b11")
        self.expect_refusal(10, "closing: line 2: no machine 'b11' (is it 'b1'?)", "evacuate", *PACKED, "closing", *NAMES, "--out", "x")
        self.expect_refusal(3, "nowhere: No such file or directory", "evacuate", *PACKED, "nowhere", *NAMES, "--out", "x")
        self.put_closed("a1")
        self.expect(4, "evacuate", "model", "initial", "closing", *NAMES, "--out", "x")
        self.expect(2, "evacuate", *PACKED, "closing", *NAMES, "--out", "packed/names.json")
        put("crowd", "0 0 0\n")
        self.expect_refusal(6, "infeasible: crowd: conflict web a1", "evacuate", "packed/model", "crowd", "closing", *NAMES, "--out", "x")
        self.assertFalse(os.path.exists("x"))


class Repair(ByNames):
    def test_repaired(self):
        put("crowd", "0 0 0\n")
        told = self.expect(0, "repair_words", "packed/model", "crowd", *NAMES, "--out", "repaired")
        self.assertTrue(told.startswith("feasible\n"), told)
        self.expect(4, "repair_words", "model", "crowd", *NAMES, "--out", "x")
        self.expect(2, "repair_words", "packed/model", "crowd", *NAMES, "--out", "packed/names.json")

    def test_broken(self):
        put("crowd", "0 0 0\n")
        self.put_closed("a2")
        words = *NAMES, "--closed", "closing", "--out", "repaired", "--turns", 3
        told = self.expect(11, "repair_words", "packed/model", "crowd", *words)
        self.assertRegex(told, "^broken (conflict web a1|dependency web db b)\n")
        self.put_closed("a3")
        self.expect(10, "repair_words", "packed/model", "crowd", *words)
        put("short", "0 0\n")
        self.expect_refusal(5, "bad assignment: short: missing process db-0", "repair_words", "packed/model", "short", *NAMES, "--out", "x")

    def test_stays_in_use(self):
        """What starts on a1 is too much for it; web-1 fits nowhere."""
        small = text_of("fleet/machines.csv").replace("a1,a,r1,16,64Gi", "a1,a,r1,16,1Gi")
        alone = "process,service,machine,move_cost,cpu\ndb-0,db,a1,,\n"
        services = text_of("fleet/services.csv").replace("web,2,db", "web,0,")
        self.write_fleet("small", machines=small, services=services, processes=alone)
        self.pack("small", "packed_small")
        words = "packed_small/model", "packed_small/initial", "--names", "packed_small/names.json", "--out", "repaired"
        self.assertIn("its moves break transient a1 memory 8Gi 1Gi\n", self.expect(0, "repair_words", *words))
        self.write_fleet("small", machines=small, services=services, processes=alone + "web-1,web,b1,,100\n")
        self.pack("small", "packed_small")
        told = self.expect(11, "repair_words", *words, "--turns", 5)
        self.assertTrue(told.startswith("broken capacity b1 cpu 100 16\n"), told)
        self.assertIn("on machine a1, 8Gi of 1Gi of transient memory stay in use whatever moves\n", told)


class Lists(ByNames):
    """What moves and summary say of a list that is refused: its name, and the names in it."""

    def test_broken(self):
        for text, cause in (("0 0 0\n", "conflict web a1"), ("2 1 0\n", "dependency web db b")):
            put("wrong", text)
            for tool, words in (("moves", [*PACKED, "wrong"]), ("summary", ["wrong", *PACKED])):
                self.expect_refusal(6, f"infeasible: wrong: {cause}", tool, *words, *NAMES)

    def test_closed(self):
        put("new", "0 1 1\n")
        for closed in ("1\n", "a2\n"):
            put("closing", closed)
            for tool, words in (("moves", [*PACKED, "new"]), ("summary", ["new", *PACKED])):
                self.expect_refusal(6, "infeasible: new: closed db-0 a2", tool, *words, *NAMES, "--closed", "closing")

    def test_no_list(self):
        """A list that is none is told by its own name, and not by that of a copy."""
        for text, detail in (("0 1 9\n", "no machine for process db-0, value 9"), ("0 1\n", "missing process db-0")):
            put("wrong", text)
            self.expect_refusal(5, f"bad assignment: wrong: {detail}", "moves", *PACKED, "wrong", *NAMES)
            self.expect_refusal(5, f"bad assignment: wrong: {detail}", "summary", "wrong", *PACKED, *NAMES)
        self.expect_refusal(5, "bad assignment: wrong: missing process 2", "moves", *PACKED, "wrong")

    def test_report(self):
        """A report whose list breaks a rule of this model is told by its own name."""
        _, report = program("solve", "model", "initial", "w:0,1,2,0,0,0,0,0")
        put("sample_report", report)
        names = Names(hash_of("model"), ["cpu", "disk"], [], list("abcd"), [], [], ["s", "t"], list("xyz"))
        put("names.json", names.text())
        put("shut", "c\n")
        words = "sample_report", "model", "initial", "--names", "names.json", "--closed", "shut"
        self.expect_refusal(6, "infeasible: sample_report: closed y c", "summary", *words)

    def test_locale(self):
        """Names are printed as they stand, whatever the locale says."""
        self.write_fleet("north", **{name.removesuffix(".csv"): text_of(f"fleet/{name}").replace("a2", "ä2")
                                     for name in ("machines.csv", "processes.csv")})
        self.pack("north", "packed_north")
        plain = {**os.environ, "PYTHONIOENCODING": "ascii"}
        for tool, words in (("summary", ["packed_north/initial", "packed_north/model", "packed_north/initial", "--top", 9]),
                            ("evacuate", ["packed_north/model", "packed_north/initial", "closed", "--out", "emptied", "--budget", 0])):
            ran = run(tool_path(tool), *words, "--names", "packed_north/names.json", env=plain, encoding="utf-8")
            self.assertIn("machine ä2", ran.stdout, ran.stderr)


class ClosedMachines(FleetCase):
    def test_told(self):
        """Nobody goes to a machine that the fleet of a model has closed, whatever list is given, and that is told."""
        self.write_fleet("fleet", machines=text_of("fleet/machines.csv").replace("a2,a,r2,16,64Gi,open", "a2,a,r2,16,64Gi,closed"))
        self.pack()
        put("new", "0 1 1\n")
        put("closed2", "0\n")
        line = "moves: closed too, as packed/closed says: {}; --only passes over that list\nmoves: infeasible: new: closed {}\n"
        for words, status, told in ((NAMES, 6, line.format("a2", "db-0 a2")), ((), 6, line.format("1", "2 1")),
                                    ((*NAMES, "--closed", "closed2"), 6, line.format("a2", "db-0 a2")),
                                    ((*NAMES, "--closed", "packed/closed"), 6, "moves: infeasible: new: closed db-0 a2\n"),
                                    ((*NAMES, "--only"), 0, ""), ((*NAMES, "--only", "--closed", "closed2"), 0, "")):
            ran = run(tool_path("moves"), *PACKED, "new", *words)
            self.assertEqual((ran.returncode, ran.stderr), (status, told), words)

    def test_piped(self):
        """A closed list may come through a pipe, though it is read several times; one without an end is refused."""
        for words in (["model", "initial", "/dev/stdin", "--out", "piped", "--budget", "0"],
                      ["model", "initial", "/dev/stdin", "--out", "piped", "--most", "--seconds", "1"]):
            ran = run("sh", "-c", 'echo 3 | "$0" "$@"', tool_path("evacuate"), *words)
            self.assertIn("went 1 of 1 processes of 1 closed machine\n" if "--most" not in words else "moved ", ran.stdout, ran.stderr)
            self.assertNotIn("3", text_of("piped").split()[0::2])
        ran = run("sh", "-c", 'yes 1 | "$0" model initial new --closed /dev/stdin', tool_path("moves"), timeout=60)
        self.assertEqual((ran.returncode, ran.stderr), (10, "moves: /dev/stdin has more than 4,194,304 bytes\n"))

    def test_evacuate_and_repair(self):
        """What is emptied doesn't go to a machine that the fleet has closed, which isn't emptied itself."""
        machines = text_of(os.path.join(EXAMPLE, "machines.csv"))
        shutil.copytree(EXAMPLE, "drained")
        put("drained/machines.csv", re.sub(r"^(node-c1-2,.*),$", r"\1,closed", machines, flags=re.M))
        self.pack("drained")
        put("closing", "node-c1-1\nnode-a1-1\nnode-b1-1\n")
        words = [*PACKED, "closing", *NAMES, "--out", "emptied", "--budget", "0"]
        ran = run(tool_path("evacuate"), *words)
        self.assertEqual(ran.returncode, 0, ran.stderr)
        self.assertIn("evacuate: closed too, as packed/closed says: node-c1-2; --only passes over that list\n", ran.stderr)
        self.assertIn("went 13 of 13 processes of 3 closed machines: node-a1-1, node-b1-1, node-c1-1\n", ran.stdout)
        self.assertEqual(program("check", *PACKED, "emptied", "--closed", "packed/closed")[0], 0)
        alone = run(tool_path("evacuate"), *words, "--only")
        self.assertEqual((alone.returncode, "closed too" in alone.stderr), (0, False))
        put("crowded_fleet", " ".join(text_of("packed/initial").split()[:1] * 60))
        ran = run(tool_path("repair_words"), PACKED[0], "crowded_fleet", *NAMES, "--out", "repaired", "--turns", 2)
        self.assertIn("repair_words: closed too, as packed/closed says: node-c1-2;", ran.stderr)

    def test_quiet(self):
        """Nothing is told if no machine is closed, or if the model has no names, whatever file stands beside it."""
        self.named("pack", EXAMPLE, "packed")
        for words in (PACKED, ("model", "initial")):
            ran = run(tool_path("moves"), *words, words[1])
            self.assertEqual((ran.returncode, ran.stderr), (0, ""))
