"""improve, evacuate and repair_words at work, on the sample and on small instances."""
import random

from common import ToolCase, begin, put, run, text_of


class Work(ToolCase):
    def test_sample(self):
        told = self.expect(0, "improve", "model", "initial", "--out", "best", "--tries", 200)
        self.assertIn("cost 2411\n", told, "the sample's least cost")
        self.expect(0, "improve", "model", "initial", "--out", "best", "--tries", 1)
        self.expect(11, "evacuate", "model", "initial", "closed", "--out", "emptied")
        put("closed3", "3\n")
        told = self.expect(0, "evacuate", "model", "initial", "closed3", "--out", "emptied")
        self.assertIn("1 of 1", told, "process 1 of the sample leaves machine 3")
        self.expect(0, "evacuate", "model", "initial", "empty", "--out", "emptied")
        self.expect(0, "repair_words", "model", "crowded", "--out", "repaired")
        self.assertTrue(self.is_feasible("model", "repaired", "repaired"))
        self.expect(0, "repair_words", "model", "initial", "--out", "repaired")

    def test_evacuate(self):
        model, initial = self.make_instance("evacuate", 20, 100, 3, 1)
        put("two", "1 2\n")
        told = self.expect(0, "evacuate", model, initial, "two", "--out", "emptied", "--budget", 0)
        self.assertTrue(self.is_feasible(model, initial, "emptied", "--closed", "two"))
        self.assertFalse({"1", "2"} & set(text_of("emptied").split()))
        self.assertIn("10 of 10", told)

    def test_repair(self):
        model, initial = self.make_instance("repair", 20, 100, 3, 1)
        for seed in (1, 2):
            chance = random.Random(seed)
            start = text_of(initial).split()
            for process in chance.sample(range(100), 6):
                start[process] = str(chance.randrange(20))
            put("broken", " ".join(start) + "\n")
            tool = begin("repair_words", model, "broken", "--out", "repaired", "--idle", 30)
            _, error = tool.communicate()
            self.assertIn(tool.returncode, (0, 11), error)
            self.assertNotIn("Traceback", error)
            if tool.returncode == 0:
                self.assertTrue(self.is_feasible(model, "repaired", "repaired"))

    def test_many_resources(self):
        """As many resources as a model of a challenge has, all of them in balance objectives."""
        chance = random.Random(5)
        need = [[chance.randint(1, 9) for _ in range(12)] for _ in range(40)]
        lines = ["12"] + ["1 1"] * 12 + ["10"]
        lines += [" ".join(map(str, [m // 5, m, *[80] * 12, *[20] * 12, *[abs(m - b) for b in range(10)]])) for m in range(10)]
        lines += ["40"] + ["1 0"] * 40 + ["40"] + [" ".join(map(str, [p, *need[p], 1])) for p in range(40)]
        lines += ["6"] + [f"{2 * b} {2 * b + 1} 2 3" for b in range(6)] + ["1 1 1"]
        put("wide", "\n".join(lines) + "\n")
        put("wide_start", " ".join(str(p % 5) for p in range(40)) + "\n")
        self.assertTrue(self.is_feasible("wide", "wide_start", "wide_start"))
        self.expect(0, "improve", "wide", "wide_start", "--out", "wide_best", "--tries", 5000)
        self.assertTrue(self.is_feasible("wide", "wide_start", "wide_best"))
