"""summary and plot over reports that are whole, cut off or forged."""
import json
import random

from common import LOTS, ToolCase, begin, put, text_of


class Reports(ToolCase):
    def setUp(self):
        self.lines = text_of("report").splitlines(keepends=True)
        self.best_at = int(self.lines[7].split()[1])

    def test_json(self):
        found = json.loads(self.expect(0, "summary", "report", "model", "initial", "--json"))
        self.assertEqual((found["entries"], found["start"]["cost"]), (20, 4200))
        self.assertEqual(sum(worker["entries"] for worker in found["workers"]), 20)

    def test_lots(self):
        self.expect(0, "summary", "report", "model", "initial", "--lots", " ".join(LOTS))
        self.expect(9, "summary", "report", "model", "initial", "--lots", "7:10")
        self.expect(2, "summary", "report", "model", "initial", "--lots", "nonsense")
        self.expect(2, "summary", "report", "model", "initial", "--lots", "'")
        put("cut", "".join(self.lines[:-1]))
        self.expect(9, "summary", "cut", "model", "initial", "--lots", " ".join(LOTS))

    def test_other_files(self):
        self.expect(5, "summary", "model", "model", "initial")
        self.expect(9, "summary", "empty", "model", "initial")
        self.expect(9, "summary", "report", "model", "other")

    def is_told(self, text):
        """Whether a cut text looks like a shorter report: it ends between two entries after the best."""
        return text.count("\n") >= 10 + self.best_at and text.endswith("\n")

    def test_cut(self):
        report = "".join(self.lines)
        for at in range(0, len(report) - 1, 13):
            put("cut", report[:at])
            self.expect(0 if self.is_told(report[:at]) else 9, "summary", "cut", "model", "initial")
        for at in [*range(0, len(report), 29), len(report) - 1]:
            put("cut", report[:at])
            self.expect(0 if self.is_told(report[:at]) else 9, "plot", "cut")

    def test_forged(self):
        chance = random.Random(1)
        for _ in range(15):
            at = chance.randrange(len(self.lines))
            words = self.lines[at].split()
            words[chance.randrange(len(words))] = chance.choice(["", "x", "-1", "999999999999"])
            put("forged", "".join(self.lines[:at] + [" ".join(words) + "\n"] + self.lines[at + 1:]))
            run = begin("summary", "forged", "model", "initial")
            _, error = run.communicate()
            # (if its first line begins with a number, it reads as a list, and is none)
            self.assertIn(run.returncode, (0, 9) if at else (5, 9), f"{self.lines[at]} as {words}: {error}")
            self.assertNotIn("Traceback", error)
        for at in (0, 5, 8, 9):
            put("forged", "".join(self.lines[:at] + self.lines[at + 1:]))
            self.expect(9, "summary", "forged", "model", "initial")

    def test_pictures(self):
        for words in ([], ["model", "initial"], ["model", "initial", "--run"]):
            self.assertTrue(self.expect(0, "plot", "report", *words).endswith("</svg>\n"))
        self.expect(0, "plot", "--out", "picture", "report", "model", "initial")
        self.assertTrue(text_of("picture").endswith("</svg>\n"))
