"""Wrong calls of the tools: each ends with its status and one line."""
import os

from common import SAMPLE, ToolCase, begin

SAME = "/bin/echo"  # a program that prints something else

CALLS = {
    "improve": ["model", "initial", "--out", "x"],
    "evacuate": ["model", "initial", "closed", "--out", "x"],
    "repair_words": ["model", "crowded", "--out", "x"],
    "summary": ["report", "model", "initial"],
}


class Calls(ToolCase):
    def tearDown(self):
        self.assertFalse(os.path.exists("x"), "a refused call wrote its file")

    def test_help(self):
        for tool in [*CALLS, "plot"]:
            told = self.expect(0, tool, "--help")
            self.assertIn("usage:", told)
            self.assertEqual(self.expect(0, tool, "--version").split()[0], f"reassign-{tool}")
            examples = [line[6:] for line in told.splitlines() if line.startswith("    $ ")]
            self.assertTrue(examples, told)
            for example in examples:
                self.run_example(tool, example)

    def run_example(self, tool, example):
        """Runs a command that a tool's help shows, with the sample and files of this folder in the place of /tmp."""
        words = example.replace("/tmp/", "help_").replace("examples/sample", SAMPLE).split()
        for word in words:
            if word in ("help_closed", "help_report") and not os.path.exists(word):
                os.link(word[5:], word)
        self.assertEqual(words[0], f"tools/{tool}")
        run = begin(tool, *words[1:])
        printed, error = run.communicate()
        self.assertIn(run.returncode, (0, 11), error)
        self.assertTrue(printed or "--out" in words, example)

    def test_words(self):
        for tool, right in CALLS.items():
            self.expect(2, tool)
            self.expect(2, tool, *right, "more")
            self.expect(2, tool, *right, "--nonsense")
            self.expect(2, tool, "", *right[1:])
            self.expect(3, tool, *right, "--program", "nowhere")
            self.expect(2, tool, *right, "--program")

    def test_files(self):
        for tool, right in CALLS.items():
            first = right.index("model")
            self.expect(3, tool, *["nowhere" if word == "model" else word for word in right])
            self.expect(3, tool, *["nowhere" if word in ("initial", "crowded") else word for word in right])
            self.expect(3, tool, *["folder" if word == "model" else word for word in right])
            swapped = list(right)
            swapped[first], swapped[first + 1] = right[first + 1], right[first]
            self.expect(4, tool, *swapped)
            self.expect(4, tool, *["cut_model" if word == "model" else word for word in right])
            self.expect(5, tool, *["cut_list" if word in ("initial", "crowded") else word for word in right])

    def test_outputs(self):
        for tool, right in CALLS.items():
            if "--out" in right:
                self.expect(2, tool, *right[:-2])
                for place, status in (("/dev/full", 2), ("folder", 2), ("nowhere/x", 7)):
                    self.expect(status, tool, *right[:-1], place)
                self.expect(2, tool, *right, "--seed", "-1")

    def test_improve(self):
        right = CALLS["improve"]
        for word in ("0", "1.5", "17", "x", "99999999999999999999999"):
            self.expect(2, "improve", *right, "--workers", word)
        for more in (["--minutes", "1", "--tries", "1"], ["--seconds", "0"], ["--seconds", "x"], ["--seconds", "1", "--tries", "9"],
                     ["--tries", "0"], ["--tries", "1000000000001"], ["--list", "0"], ["--list", "2", "--collect"], ["--log", "x"],
                     ["--log", "model"], ["--anneal"]):
            self.expect(2, "improve", *right, *more)
        for more in (["--closed", "nowhere"], ["--list", "nowhere"], ["--collect"], ["--anneal", "nowhere"], ["--names", "nowhere"]):
            self.expect(3, "improve", *right, *more)
        self.expect(4, "improve", *right, "--names", "model")
        self.expect(10, "improve", *right, "--closed", "report")
        self.expect(6, "improve", "model", "crowded", "--out", "x")
        self.expect(2, "improve", "folder", "--out", "x")
        self.expect(3, "improve", *right, "--anneal", SAME)

    def test_evacuate(self):
        self.expect(6, "evacuate", "model", "crowded", "closed", "--out", "x")
        self.expect(10, "evacuate", "model", "initial", "report", "--out", "x")

    def test_plot(self):
        for words in ([], ["report", "model"], ["--x", "report"], ["--run", "report"], ["--out"], ["-"], ["report", "--out", ""]):
            self.expect(2, "plot", *words)
        for status, words in ((3, ["nowhere"]), (3, ["folder"]), (9, ["empty"]), (2, ["model"]), (9, ["report", "model", "other"]),
                              (4, ["report", "initial", "model"]), (5, ["report", "model", "report"]),
                              (5, ["report", "model", "cut_list"]), (4, ["report", "report", "initial"]),
                              (4, ["report", "cut_model", "initial"]), (3, ["report", "model", "nowhere"]),
                              (7, ["--out", "nowhere/x", "report"])):
            self.expect(status, "plot", *words)
