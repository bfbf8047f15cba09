"""summary and plot over lists, with names and titles, and what pictures show."""
import json
import re

from common import ToolCase, program, put, text_of


class Lists(ToolCase):
    def names(self):
        from reassign_tools.names import Names, hash_of
        names = Names(hash_of("model"), ["cpu", "disk"], [], ["north-1", "north-2", "east-1", "east-2"], ["n", "e"], ["a", "b", "c"],
                      ["shop", "search"], ["shop-0", "shop-1", "search-0"])
        put("names.json", names.text())
        return "names.json"

    def test_summary(self):
        told = self.expect(0, "summary", "new", "model", "initial", "--title", "This week").splitlines()
        self.assertEqual(told[0], "This week")
        self.assertEqual(told[1], "1 of 3 processes moves. Machines above the safety capacity of resource 0: 2 before, 1 after; the "
                         "fullest 100 % before, 67 % after.")
        self.assertEqual(told[2:4], ["start 4200", "end 3510"])
        found = json.loads(self.expect(0, "summary", "new", "model", "initial", "--json", "--names", self.names()))
        self.assertEqual(found["end"]["cost"], 3510)
        self.assertEqual(found["moved"], [{"process": 1, "service": 0, "from": 3, "to": 2, "names": ["shop-1", "shop", "east-2", "east-1"]}])
        self.assertEqual(found["fullest_after"][0], {"machine": 2, "resource": 0, "used": 10, "capacity": 15, "names": ["east-1", "cpu"]})
        self.assertNotIn("entries", found)
        self.assertIn("machine east-2 cpu 10 of 10", self.expect(0, "summary", "new", "model", "initial", "--names", "names.json"))
        report = self.expect(0, "summary", "report", "model", "initial", "--names", "names.json")
        self.assertIn("of cpu:", report.splitlines()[0])

    def test_nobody_moves(self):
        told = self.expect(0, "summary", "initial", "model", "initial").splitlines()[0]
        self.assertTrue(told.startswith("0 of 3 processes move."), told)

    def test_refusals(self):
        self.expect(6, "summary", "crowded", "model", "initial")
        self.expect(5, "summary", "cut_list", "model", "initial")
        self.expect(5, "plot", "cut_list", "model", "initial")
        self.expect(2, "summary", "new", "model", "initial", "--lots", "7:10")
        self.expect(2, "plot", "new")
        self.expect(2, "plot", "new", "model", "initial", "--run")
        self.expect(2, "plot", "report", "--names", self.names())
        put("other_model", text_of("model").replace("100", "101", 1))
        self.expect(4, "summary", "new", "other_model", "initial", "--names", "names.json")
        self.expect(4, "plot", "new", "other_model", "initial", "--names", "names.json")

    def test_plot(self):
        picture = self.expect(0, "plot", "new", "model", "initial", "--names", self.names(), "--title", "A & B")
        for text in (">A &amp; B<", ">cpu<", ">disk<", ">north-1<", ">before<", ">after<", "tools/plot --names names.json new model"):
            self.assertIn(text, picture)
        self.expect(2, "plot", "new", "model", "initial", "--out", "model")
        self.expect(2, "plot", "new", "model", "initial", "--names", "names.json", "--out", "names.json")


class Machines(ToolCase):
    def picture(self, machines, resources, name=str, **how):
        from reassign_tools.machine_pictures import draw_machines
        from reassign_tools.machine_uses import ResourceUse
        use = lambda name: ResourceUse(name, [100] * machines, [70] * machines, [m % 90 for m in range(machines)], [45] * machines)
        names = list(map(name, range(machines)))
        return draw_machines([use(f"kind {r}") for r in range(resources)], names, "title", "command", **how)

    def test_names(self):
        """Names that are too long to stand side by side stand upright, and the panels further apart."""
        short, long = self.picture(24, 2), self.picture(24, 2, "node-eu-a1-{}".format)
        self.assertNotIn("rotate", short)
        self.assertIn(">node-eu-a1-23<", long)
        self.assertEqual(long.count("rotate(-90"), 48)
        height = lambda picture: int(re.search(r'height="(\d+)"', picture)[1])
        self.assertGreater(height(long), height(short) + 100)

    def test_many_names(self):
        """Names stand upright and small as long as there is room. Beyond that the fullest are told, if that is asked for."""
        for machines, resources in ((51, 2), (91, 4), (71, 5)):
            picture = self.picture(machines, resources, "node-{}".format)
            self.assertEqual(picture.count("rotate(-90"), machines * resources)
            self.assertEqual(picture.count('font-size="6.5"'), machines * resources)
        for machines, resources in ((92, 4), (72, 5), (300, 2), (2000, 2)):
            self.assertNotIn("node-", self.picture(machines, resources, "node-{}".format))
            picture = self.picture(machines, resources, "node-{}".format, tells_fullest=True)
            self.assertIn("named: the fullest machines", picture)
            most = min(machines - 1, 89)
            self.assertEqual(picture.count(f">fullest before: node-{most} {most} %, node-"), resources)
            self.assertEqual(picture.count(">fullest after: node-0 45 %, node-1 45 %, "), resources)
        self.assertNotIn("fullest", self.picture(91, 4, "node-{}".format, tells_fullest=True))
        long = self.picture(300, 2, lambda machine: "x" * 200 + str(machine), tells_fullest=True)
        self.assertNotIn("x" * 100, long)

    def test_many_names_of_a_fleet(self):
        """A picture of a fleet with names tells those of its fullest machines."""
        from reassign_tools.names import Names, hash_of
        model, initial = self.make_instance("many", 100, 400, 2, 1)
        count = lambda word, many: [f"{word}-{at}" for at in range(many)]
        services = int(text_of(model).splitlines()[104])
        names = Names(hash_of(model), ["cpu", "memory"], [], count("node", 100), [], [], count("service", services), count("p", 400))
        put("many.json", names.text())
        self.assertRegex(self.expect(0, "plot", initial, model, initial, "--names", "many.json"), r">fullest after: node-\d+ \d+ %, ")

    def test_kinds(self):
        for machines, words in ((120, ">after<"), (121, "a bar for each machine"), (600, "a bar for each machine"), (601, "eight in ten")):
            self.assertIn(words, self.picture(machines, 2))
        self.assertIn("in 30 groups of about 20", self.picture(601, 1))
        self.assertIn("in 100 groups of 50", self.picture(5000, 1))

    def test_columns(self):
        lefts = lambda picture: {re.search(r'x="([0-9.]+)"', line)[1] for line in picture.splitlines() if ">kind " in line}
        self.assertEqual(len(lefts(self.picture(30, 4))), 1)
        self.assertEqual(len(lefts(self.picture(30, 5))), 2)

    def test_safety_on_top(self):
        """The line of the safety capacity is drawn after that of the middle, which it may lie on."""
        from reassign_tools.pictures import BLUE, GREEN
        lines = [line for line in self.picture(1000, 1).splitlines() if "<polyline" in line]
        self.assertLess([BLUE in line for line in lines].index(True), [GREEN in line for line in lines].index(True))

    def test_groups(self):
        """Eight in ten of a group lie between the ends of its band, and all of it between its outer ends."""
        from reassign_tools.machine_pictures import Groups
        values = [(7 * m) % 1009 for m in range(1009)]
        groups = Groups(sorted(range(1009)))
        self.assertGreaterEqual(min(map(len, groups.members)), 20)
        ends = [groups.parts(values, part) for part in (0, 0.1, 0.9, 1)]
        for at, group in enumerate(groups.members):
            lowest, low, high, highest = (end[at] for end in ends)
            inside = sum(low <= values[m] <= high for m in group) / len(group)
            self.assertTrue(0.78 <= inside <= 0.86, inside)
            self.assertEqual((lowest, highest), (min(values[m] for m in group), max(values[m] for m in group)))


class Runs(ToolCase):
    def run_of(self, late):
        """A long report of 1,000 entries whose cost falls early. A second worker begins at the place `late`."""
        head = text_of("report").splitlines()[:10]
        head[:8] = ["cost 2000", "load 2000", "balance 0", "process 0", "service 0", "machine 0", "bound 1300", "best_at 20"]
        made, lines = [0, 0], []
        for place in range(1000):
            worker = int(place >= late and place % 2)
            verdict = f"done {4000 - 100 * (place + 1)}" if place < 20 else "refused same 0"
            lines.append(f"{place} {worker} {made[worker]} {place} shift 0:0>0 {verdict}")
            made[worker] += 1
        put("long", "\n".join(head + lines) + "\n")
        return self.expect(0, "plot", "long")

    def test_axis(self):
        self.assertIn("place in the journal, on a logarithmic axis", self.run_of(1000))
        self.assertNotIn("place in the journal, on a logarithmic axis", self.run_of(500))

    def test_distance(self):
        self.assertIn("cost above the lower bound, on a logarithmic axis", self.run_of(1000))
        _, report = program("solve", "model", "initial", "7:0")
        put("none", report)
        self.assertIn("cost above the lower bound", self.expect(0, "plot", "none"))
