"""Outputs that would destroy an input, and names that aren't UTF-8."""
import os
import shutil

from common import PROGRAM, ToolCase, begin, run, text_of, tool_path

INPUTS = ("model", "initial", "closed", "report", "crowded", "new")


class Outputs(ToolCase):
    """Each output is compared with each input before any work."""

    def setUp(self):
        self.texts = {name: text_of(name) for name in INPUTS}

    def expect_refusal(self, tool, *words):
        self.expect(2, tool, *words)
        self.assertEqual({name: text_of(name) for name in INPUTS}, self.texts)

    def names_of(self, name):
        """The names by which a file may be called."""
        yield name
        yield os.path.join("..", os.path.basename(os.getcwd()), name)
        for make, other in ((os.symlink, f"link_to_{name}"), (os.link, f"hard_{name}")):
            if not os.path.lexists(other):
                make(name, other)
            yield other

    def test_inputs(self):
        calls = {
            "improve": (["model", "initial", "--closed", "closed"], "--out"),
            "evacuate": (["model", "initial", "closed"], "--out"),
            "repair_words": (["model", "crowded", "--closed", "closed"], "--out"),
            "plot": (["report", "model", "initial"], "--out"),
        }
        for tool, (words, out) in calls.items():
            for name in words:
                if not name.startswith("--"):
                    for output in self.names_of(name):
                        self.expect_refusal(tool, *words, out, output)
            for name in words[:1]:
                for _ in self.names_of(name):
                    self.expect_refusal(tool, f"link_to_{name}", *words[1:], out, name)

    def test_model_out(self):
        self.expect_refusal("evacuate", "model", "initial", "closed", "--out", "x", "--model-out", "model")
        self.expect_refusal("evacuate", "model", "initial", "closed", "--out", "x", "--model-out", "./x")
        self.assertFalse(os.path.exists("x"))

    def test_not_there_yet(self):
        """A link to a file that isn't there yet is that file."""
        os.symlink("later", "link_to_later")
        self.expect_refusal("evacuate", "model", "initial", "closed", "--out", "later", "--model-out", "link_to_later")

    def test_program(self):
        shutil.copy(PROGRAM, "program")
        self.expect_refusal("improve", "model", "initial", "--program", "./program", "--out", "program")


class Bytes(ToolCase):
    """Names that aren't UTF-8, which the program doesn't take."""

    NAME = os.fsdecode(b"caf\xe9")

    def test_refused(self):
        for name in ("model", "initial", "closed", "report"):
            os.link(name, f"{self.NAME}_{name}")
        for tool, words in (("improve", ["model", "initial", "--out", "x"]), ("evacuate", ["model", "initial", "closed", "--out", "x"]),
                            ("repair_words", ["model", "initial", "--out", "x"]), ("summary", ["report", "model", "initial"])):
            for name in words:
                if not name.startswith("--"):
                    self.expect(2, tool, *[f"{self.NAME}_{word}" if word == name else word for word in words])
        self.expect(2, "improve", "model", "initial", "--out", "x", "--closed", f"{self.NAME}_closed")
        self.assertFalse(os.path.exists("x") or os.path.exists(f"{self.NAME}_x"))

    def test_plot(self):
        """plot calls no program, so it takes any name, and shows it as far as it can be read."""
        names = [f"{self.NAME}_plot_{name}" for name in ("report", "model", "initial")]
        for name in names:
            os.link(name.rpartition("_")[2], name)
        for words in (names[:1], names, ["--run", *names], [names[0], "--out", self.NAME]):
            ran = run(tool_path("plot"), *words, text=False, errors=None)
            self.assertEqual((ran.returncode, ran.stderr), (0, b""))
            if "--out" not in words:
                self.assertIn("caf�_plot_report", ran.stdout.decode())
        self.assertTrue(os.path.exists(self.NAME))
        cut = begin("plot", f"{self.NAME}_plot_model")
        _, error = cut.communicate()
        # (a model reads as a list, of which plot wants to know the model and the start)
        self.assertEqual((cut.returncode, len(error.splitlines())), (2, 1), error)
