"""What named says of lists, by names: broken rules, tables with other machines, edits."""
import os
import random

from common import PROGRAM, program, put, run, text_of, tool_path
from fleet_cases import MACHINES, PROCESSES, SERVICES, SETTINGS, FleetCase
from reassign_tools.broken_rules import broken_rules
from reassign_tools.files import read_list
from reassign_tools.models import Model, closed_flags


class Lists(FleetCase):
    def setUp(self):
        super().setUp()
        self.pack()

    def check(self, numbers, status):
        """What is told of a list, and the line of the program."""
        put("list", numbers + "\n")
        ran = run(tool_path("named"), "check", "packed", "list")
        own, printed = program("check", "packed/model", "packed/initial", "list", "--closed", "packed/closed")
        self.assertEqual((ran.returncode, own), (status, status), ran.stderr)
        self.assertTrue(ran.stdout.endswith(printed))
        return ran.stdout.splitlines(), ran.stderr

    def test_feasible(self):
        lines, error = self.check("0 1 0", 0)
        self.assertEqual(lines[0], "list breaks no rule")
        self.assertTrue(lines[1].startswith("fullest: a1 cpu 3,000 of 16,000 (19 %), "))
        self.assertEqual((lines[2], error), ("cost 0", ""))
        self.assertEqual(self.named("check", "packed")[0].splitlines()[0], "today's placement breaks no rule")

    def test_every_rule(self):
        lines, error = self.check("2 2 1", 6)
        self.assertEqual(lines, [
            "conflict    b1: 2 of service web: web-0, web-1",
            "spread      web: in 1 location and has to be in 2",
            "dependency  web needs db, which isn't in b: web-0, web-1",
            "list breaks 3 rules",
        ])
        self.assertEqual(error, "named: infeasible: list: conflict web b1\n")

    def test_capacities_worst_first(self):
        self.write_fleet("fleet", machines=MACHINES.replace("a1,a,r1,16,64Gi", "a1,a,r1,2,9000Mi"))
        self.pack()
        lines, error = self.check("0 1 0", 6)
        placement = ["capacity    a1: cpu 3,000 of 2,000 (150 %): db-0, web-0",
                     "capacity    a1: memory 9,623 of 9,000 (107 %): db-0, web-0",
                     "transient   a1: memory 9,623 of 9,000 (107 %): db-0, web-0"]
        self.assertEqual(lines, [*placement, "today's placement breaks 3 rules", *placement, "list breaks 3 rules"])
        self.assertEqual(error, "named: infeasible: packed/initial: capacity a1 cpu 3 2\n")
        printed, _ = self.named("check", "packed", status=6)
        self.assertEqual(printed.splitlines(), [*placement, "today's placement breaks 3 rules"])

    def test_closed(self):
        self.write_fleet("fleet", machines=MACHINES.replace("b1,b,r3,16,64Gi,", "b1,b,r3,16,64Gi,closed"),
                         services=SERVICES.replace("db,500m", ",500m"))
        self.pack()
        lines, error = self.check("0 2 0", 6)
        self.assertEqual(lines, ["closed      b1: is closed, and web-1 moves there", "list breaks 1 rule"])
        self.assertEqual(error, "named: infeasible: list: closed web-1 b1\n")

    def test_list_and_report(self):
        self.assertEqual(self.named("list", "packed", "packed/initial")[0], "process,machine\nweb-0,a1\nweb-1,a2\ndb-0,a1\n")
        _, report = program("solve", "packed/model", "packed/initial", "1:10")
        put("solved", report)
        numbers = next(line for line in report.splitlines() if line.startswith("assignment ")).split()[1:]
        put("plain", " ".join(numbers))
        self.assertEqual(self.named("list", "packed", "solved"), self.named("list", "packed", "plain"))
        self.assertEqual(self.named("check", "packed", "solved")[0].split("\n", 1)[1], self.named("check", "packed", "plain")[0].split("\n", 1)[1])

    def test_unpack(self):
        put("list", "2 1 2\n")
        self.named("unpack", "packed", "list", "next")
        self.assertEqual(text_of("next/processes.csv"), PROCESSES.replace("web-0,web,a1", "web-0,web,b1").replace("db-0,db,a1", "db-0,db,b1"))
        for file, text in (("machines.csv", MACHINES), ("services.csv", SERVICES), ("settings.toml", SETTINGS)):
            self.assertEqual(text_of(f"next/{file}"), text)
        self.pack("next", "again")
        self.assertEqual(text_of("again/initial"), "2 1 2\n")
        self.named("unpack", "packed", "list", "next", status=2)

    def test_refusals(self):
        put("short", "0 1\n")
        put("high", "0 1 3\n")
        put("words", "a b c\n")
        for name, status in (("short", 5), ("high", 5), ("words", 5), ("nowhere", 3)):
            for command in ("check", "list"):
                self.named(command, "packed", name, status=status)
            self.named("unpack", "packed", name, "next", status=status)
            self.assertFalse(os.path.exists("next"))
        self.named("check", "nowhere", status=3)
        self.named("check", "packed", "list", "more", status=2)
        self.named("nonsense", status=2)

    def test_names_of_another_model(self):
        put("packed/model", text_of("packed/model").replace("16000", "15000", 1))
        for words in (("check", "packed"), ("list", "packed", "packed/initial"), ("unpack", "packed", "packed/initial", "next")):
            self.named(*words, status=4)
        put("packed/names.json", "{}")
        self.named("check", "packed", status=4)

    def test_rules_agree_with_the_program(self):
        """On lists that are changed at random, the program's first cause is one of those found here, or there is none."""
        chance = random.Random(1)
        model, start = self.make_instance("instance", 20, 100, 3, 1)
        put("closed_some", "3 7\n")
        read, initial = Model.read(model), read_list(start)
        flags = closed_flags(read, "closed_some")
        kinds = set()
        for turn in range(40):
            now = list(initial)
            for _ in range(turn % 6):
                now[chance.randrange(100)] = chance.randrange(20)
            put("list", " ".join(map(str, now)))
            ran = run(PROGRAM, "check", model, start, "list", "--closed", "closed_some")
            found = [one.line for one in broken_rules(read, initial, now, flags)]
            if ran.returncode:
                cause = ran.stderr.strip().removeprefix("infeasible: list: ")
                kinds.add(cause.split()[0])
                self.assertIn(cause, found)
            else:
                self.assertEqual(found, [])
        self.assertGreaterEqual(len(kinds), 2)


class Edits(FleetCase):
    NEW = "process,service,machine,move_cost,cpu\nweb-1,web,a2,3,\ndb-0,db,a1,,2\nweb-2,web,b1,,750m\ndb-1,db,b1,2,\n"

    def test_edits_give_the_model(self):
        self.write_fleet("later", processes=self.NEW)
        printed, _ = self.named("diff", "fleet", "later", "--out", "edits")
        self.assertEqual(printed.splitlines(), ["edit 0 resize db-0", "edit 1 retire web-0", "edit 2 add web-2 of web on b1",
                                                "edit 3 add db-1 of db on b1"])
        self.assertEqual(text_of("edits"), "3 2 2000 8192\n2 0\n1 0 2 750 1431 1\n1 1 2 2000 8192 2\n")
        self.assertEqual(self.named("diff", "fleet", "later")[0], text_of("edits"))
        self.write_fleet("fleet", services=SERVICES.replace("web,2,db", "web,1,"))
        self.write_fleet("later", services=SERVICES.replace("web,2,db", "web,1,"), processes=self.NEW)
        self.named("diff", "fleet", "later", "--out", "edits")
        self.pack()
        status, edited = program("edit", "packed/model", "packed/initial", "packed/initial", "edits")
        self.assertEqual(status, 0)
        self.assertEqual([line.split()[2] for line in edited.splitlines() if line.startswith("edit ")], ["done"] * 4)
        put("edited_model", edited.split("\nmodel\n")[1])
        self.pack("later", "packed_later")
        one, other = Model.read("edited_model"), Model.read("packed_later/model")
        self.assertEqual((one.capacity, one.ways, one.needs, one.spreads), (other.capacity, other.ways, other.needs, other.spreads))
        rows = lambda model: sorted(zip(model.service, model.required, model.move_cost))
        self.assertEqual(rows(one), rows(other))

    def test_nothing(self):
        self.write_fleet("later", machines=MACHINES.replace("16,", "16.0,").replace("64Gi", "65536Mi"))
        self.assertEqual(self.named("diff", "fleet", "later")[0], "")

    def test_no_edits(self):
        self.write_fleet("later", machines=MACHINES.replace("a2,a,r2,16", "a3,a,r2,16").replace("b1,b,r3,16", "b1,b,r3,32"),
                         services=SERVICES.replace("web,2,db", "web,1,"), settings=SETTINGS + "[ways]\nelsewhere = 4\n",
                         processes=PROCESSES.replace("web-1,web,a2,3", "web-1,web,a3,4"))
        printed, lines = self.named("diff", "fleet", "later", "--out", "no_edits", status=12)
        self.assertEqual((printed, os.path.exists("no_edits")), ("", False))
        self.assertEqual(lines, [
            "settings.toml: [ways] elsewhere is 4 and was 5", "machine 'a2': only in the old fleet",
            "machine 'b1': capacity of cpu is 32 and was 16", "machine 'a3': only in the new fleet",
            "service 'web': spread is 1 and was 2", "service 'web': depends_on is '' and was 'db'",
            "process 'web-1': machine is 'a3' and was 'a2'", "process 'web-1': move_cost is 4 and was 3"])

    def test_differences_in_file_order(self):
        """Machines, services and processes as their files have them, whatever the hashes of their names are."""
        machines = MACHINES + "".join(f"m{at},a,r1,{at + 1},64Gi,\n" for at in range(9))
        services = SERVICES + "".join(f"s{at},{at},,1,1Gi\n" for at in range(9))
        processes = PROCESSES + "".join(f"p{at},s{at},m{at},{at},\n" for at in range(9))
        self.write_fleet("fleet", machines=machines, services=services, processes=processes)
        self.write_fleet("later", machines=machines.replace(",r1,", ",r1,9"), services=services.replace(",,1,1Gi", "1,,1,1Gi"),
                         processes=processes.replace(",,\n", ",7,\n").replace(",\n", "0,\n"))
        for seed in "12":
            ran = run(tool_path("named"), "diff", "fleet", "later", env={**os.environ, "PYTHONHASHSEED": seed})
            self.assertEqual(ran.returncode, 12, ran.stderr)
            self.assertEqual([line.split(":")[0] for line in ran.stderr.splitlines()[:-1]],
                             ["machine 'a1'", *(f"machine 'm{at}'" for at in range(9)), *(f"service 's{at}'" for at in range(9)),
                              "process 'web-0'", "process 'web-1'", *(f"process 'p{at}'" for at in range(1, 9))])

    def test_many_alike_are_one_line(self):
        machines = MACHINES + "".join(f"m{at},a,r1,{at + 1},64Gi,\n" for at in range(300))
        self.write_fleet("fleet", machines=machines)
        self.write_fleet("later", machines=machines, settings=SETTINGS.replace('"1m"', '"1m"\nsafety = 0.9'))
        self.assertEqual(self.named("diff", "fleet", "later", status=12)[1],
                         ["resource 'cpu': safety is 0.9 and was 0.8, for each of 303 machines"])
        self.write_fleet("later", machines=machines.replace("64Gi", "32Gi").replace("b1,b,r3,16,32Gi,", "b1,b,r3,16,32Gi,closed"))
        self.assertEqual(self.named("diff", "fleet", "later", status=12)[1], [
            "303 machines: capacity of memory is 32Gi and was 64Gi ('a1', 'a2', 'b1' and 300 others)",
            "machine 'b1': state is closed and was open"])
        self.write_fleet("later", machines=machines.replace(",64Gi,", "0,64Gi,"))
        ran = run(tool_path("named"), "diff", "fleet", "later")
        lines = ran.stderr.splitlines()
        self.assertEqual(len(lines), 22)
        self.assertTrue(lines[-2].startswith("machine: and 28"), lines)
        self.assertTrue(lines[-1].startswith("named: 303 differences can't be an edit (edits add, retire and resize processes)"))

    def test_safety_of_the_same_capacity(self):
        """A safety is a share of the capacity before it is rounded."""
        self.write_fleet("fleet", machines=MACHINES.replace("b1,b,r3,16,64Gi", "b1,b,r3,16,63.8Mi"))
        self.write_fleet("later", machines=MACHINES.replace("b1,b,r3,16,64Gi", "b1,b,r3,16,63Mi"))
        self.assertEqual(self.named("diff", "fleet", "later", status=12)[1],
                         ["machine 'b1': safety of memory is 50Mi and was 51Mi"])

    def test_mistakes_of_both_fleets(self):
        self.write_fleet("fleet", machines=MACHINES.replace("a2,a,r2,16", "a2,a,r2,many"))
        self.write_fleet("later", processes=PROCESSES.replace("web-1,web", "web-1,wob"))
        _, lines = self.named("diff", "fleet", "later", status=4)
        self.assertEqual([line.split(": ")[0] for line in lines], ["fleet/machines.csv:3", "later/processes.csv:3"])

    def test_no_output_over_an_input(self):
        self.write_fleet("later", processes=self.NEW)
        self.named("diff", "fleet", "later", "--out", "later/processes.csv", status=2)
        self.assertEqual(text_of("later/processes.csv"), self.NEW)
