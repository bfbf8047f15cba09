"""The rank test of race, against known values and against all ways to give signs; and what race tells besides its tables."""
import itertools
import json
import math
import os
import random
import re
import shutil
import unittest
import unittest.mock

from common import ToolCase, put, run, text_of

# The greatest sum of ranks of which the two-sided p is at most 0.05, for 6 to 25 pairs, as tables of the test have them.
CRITICAL = (0, 2, 3, 5, 8, 10, 13, 17, 21, 25, 29, 34, 40, 46, 52, 58, 65, 73, 81, 89)
# What is known of two examples: differences, sum of ranks, p.
PLANTS = (6, 8, 14, 16, 23, 24, 28, 29, 41, -48, 49, 56, 60, -67, 75)
BEFORE = (1.83, 0.50, 1.62, 2.48, 1.68, 1.88, 1.55, 3.06, 1.30)
AFTER = (0.878, 0.647, 0.598, 2.05, 1.06, 1.29, 1.06, 3.14, 1.29)
PNG, PDF = b"\x89PNG\r\n", b"%PDF-"


def by_all_signs(differences):
    """The p by trying all signs, with ranks by counting."""
    sizes = [abs(one) for one in differences if one]
    ranks = [sum(other < one for other in sizes) + (sizes.count(one) + 1) / 2 for one in sizes]
    below = sum(rank for one, rank in zip((one for one in differences if one), ranks) if one < 0)
    least = min(below, sum(ranks) - below)
    sums = [sum(rank for rank, sign in zip(ranks, signs) if sign) for signs in itertools.product((0, 1), repeat=len(ranks))]
    return least, min(1.0, 2 * sum(one <= least for one in sums) / len(sums))


class Ranks(unittest.TestCase):
    def test_known(self):
        from reassign_tools.race_ranks import signed_ranks
        plants = signed_ranks(PLANTS)
        self.assertEqual((plants.sum, plants.p, plants.below, plants.above), (24.0, 0.041259765625, 2, 13))
        change = signed_ranks(one - other for one, other in zip(BEFORE, AFTER))
        self.assertEqual((change.sum, change.p), (5.0, 0.0390625))

    def test_critical(self):
        from reassign_tools.race_ranks import doubled_ranks, exact_p
        for count, critical in enumerate(CRITICAL, 6):
            ranks = doubled_ranks(range(count))
            self.assertLessEqual(exact_p(ranks, 2 * critical), 0.05, count)
            self.assertGreater(exact_p(ranks, 2 * critical + 2), 0.05, count)

    def test_ties_and_zeros(self):
        from reassign_tools.race_ranks import signed_ranks
        chance = random.Random(1)
        for _ in range(60):
            differences = [chance.choice((-3, -2, -1, 0, 0, 1, 2, 3, math.inf)) for _ in range(chance.randrange(1, 11))]
            found = signed_ranks(differences)
            self.assertEqual((found.sum, found.p), by_all_signs(differences), differences)
            self.assertEqual(found.equal, differences.count(0))
        self.assertEqual(signed_ranks([]).p, 1.0)
        self.assertEqual(signed_ranks([0, 0]).p, 1.0)

    def test_many(self):
        """Many pairs are judged by the normal distribution, which is near."""
        from reassign_tools.race_ranks import MOST_EXACT, doubled_ranks, exact_p, normal_p, signed_ranks
        ranks = doubled_ranks([at // 2 for at in range(MOST_EXACT)])
        for least in range(0, sum(ranks) // 2, 50):
            self.assertAlmostEqual(exact_p(ranks, least), normal_p(ranks, least), delta=0.005)
        self.assertLess(signed_ranks(range(1, 100)).p, 1e-15)
        self.assertGreater(signed_ranks([(-1) ** at * at for at in range(1, 100)]).p, 0.8)


class Told(ToolCase):
    """What race tells of runs that are there."""

    @classmethod
    def setUpClass(cls):
        super().setUpClass()
        for name, seed in (("here", 1), ("th_ere&", 2)):
            cls.make_instance(cls(), name, 20, 100, 3, seed)
        cls.words = ["--instances", "here", "th_ere&", "--seeds", "1-6", "--slack", "0,20", "--proposals", 300, "--folder", "kept",
                     "--solver", "stay: cp {initial} {new} --suffix {model}"]
        put("best", "# the best\nhere 1000  # mine\nother;5\n\nth_ere&,\t20\n")

    def race(self, status, *words, **how):
        return self.expect(status, "race", *self.words, *words, begun=True, **how)

    def test_test(self):
        plain = self.race(0)
        told = self.race(0, "--test")
        self.assertTrue(told.startswith(plain + "\n| instance | proposals | one | other |"), told)
        lines = [line.strip("| ").split(" | ") for line in told[len(plain):].strip().splitlines()[2:]]
        self.assertEqual(len(lines), 3 * 3)
        sure = next(line for line in lines if line[0] == "here" and line[2:4] == ["reassign, slack 0", "stay"])
        self.assertEqual(sure[4:], ["6", "6", "0", "0", "0", "0.0312"])
        over_all = next(line for line in lines if line[0] == "all" and line[2:4] == ["reassign, slack 20", "stay"])
        self.assertEqual(over_all[4:], ["12", "12", "0", "0", "0", "0.0005"])

    def test_infeasible(self):
        """A run without a feasible list is dearer than one with, and as dear as another without."""
        from reassign_tools.race_ranks import difference_of
        cost = lambda one: one
        self.assertEqual([difference_of(cost, *pair) for pair in ((None, 5), (5, None), (None, None), (7, 5))],
                         [math.inf, -math.inf, 0.0, 2])

    def test_known(self):
        told = self.race(0, "--known", "best", "--csv", "rows.csv", "--json", "rows.json", "--latex", "tables.tex")
        self.assertIn("| instance | start | bound | best known |\n|---|---|---|---|\n| here |", told)
        self.assertIn(" | left | above best | time |", told)
        self.assertTrue(text_of("rows.csv").splitlines()[1].endswith(",1000"))
        rows = json.loads(text_of("rows.json"))
        self.assertEqual({row["known"] for row in rows}, {1000, 20})
        self.race(0, "--csv", "plain.csv", "--json", "plain.json")
        self.assertEqual([line.rpartition(",")[0] for line in text_of("rows.csv").splitlines()], text_of("plain.csv").splitlines())
        self.assertNotIn("known", json.loads(text_of("plain.json"))[0])

    def test_known_refusals(self):
        for text in ("here\n", "here 5\nhere 6\n", "here -5\n", "here 5.5\n", "5\n", "here " + "9" * 5000 + "\n"):
            put("wrong", text)
            self.expect(9, "race", *self.words, "--known", "wrong")
        self.expect(3, "race", *self.words, "--known", "nowhere")
        self.expect(2, "race", *self.words, "--known", "best", "--latex", "best")

    def test_latex(self):
        self.race(0, "--test", "--latex", "tables.tex")
        text = text_of("tables.tex")
        self.assertEqual(text.count("\\begin{tabular}"), 3)
        self.assertIn("th\\_ere\\& & 300 & stay &", text)
        for part in re.findall(r"(?s)\\begin\{tabular\}\{(\w+)\}(.*?)\\end", text):
            self.assertEqual({len(re.split(r"(?<!\\)&", line)) for line in part[1].splitlines() if "&" in line}, {len(part[0])})
        self.assertEqual(re.findall(r"(?<!\\)[_%#$]", text), [])
        if shutil.which("pdflatex"):
            put("whole.tex", "\\documentclass{article}\\begin{document}\\tiny " + text + "\\end{document}")
            self.assertEqual(run("pdflatex", "-interaction=batchmode", "whole.tex").returncode, 0)

    def test_plot(self):
        self.race(0, "--plot", "costs.svg", "--curves", "left.svg", "--known", "best")
        picture = text_of("costs.svg")
        for text in (">here, 300 proposals<", ">th_ere&amp;, 300 proposals<", ">best known<", ">cost 1,000<", ">reassign, slack 20<"):
            self.assertIn(text, picture)
        self.assertNotIn("best known", text_of("left.svg"))
        self.expect(2, "race", *self.words, "--plot", "costs.jpg")
        self.expect(2, "race", *self.words, "--plot", "x.svg", "--curves", "x.svg")

    def test_costs_on_an_axis(self):
        from reassign_tools.race_curves import Scale
        flat, steep = Scale([100, 200], True), Scale([100, 2000], True)
        self.assertFalse(flat.is_logarithmic)
        self.assertTrue(steep.is_logarithmic)
        for scale in (flat, steep, Scale([0, 5], True), Scale([7, 7], True), Scale([10**18, 10**18 + 9], True)):
            self.assertTrue(0 <= scale.part(scale.low) < scale.part(scale.high) <= 1)
            self.assertTrue(all(0 <= scale.part(mark) <= 1 for mark, _ in scale.marks()))


class Forms(ToolCase):
    """Pictures as SVG, PNG and PDF."""

    def test_endings(self):
        self.expect(0, "plot", "report", "--out", "run.SVG")
        self.expect(0, "plot", "report", "--out", "run")
        self.assertEqual(text_of("run"), self.expect(0, "plot", "report"))
        self.expect(2, "plot", "report", "--out", "run.jpg")
        self.assertFalse(os.path.exists("run.jpg"))

    def test_makers(self):
        for ending, begin in ((".png", PNG), (".pdf", PDF)):
            name = f"run{ending}"
            if shutil.which("rsvg-convert") or shutil.which("cairosvg"):
                self.expect(0, "plot", "report", "--out", name)
                with open(name, "rb") as file:
                    self.assertEqual(file.read(len(begin)), begin)

    def path_with(self, folder, **programs):
        """A PATH with python3 and what a tool needs, and these programs by their texts."""
        os.makedirs(folder)
        for name in ("python3", "env", "dirname", "readlink", "setpriv", "sh", "cp", "cat"):
            os.symlink(shutil.which(name), os.path.join(folder, name))
        for name, text in programs.items():
            path = os.path.join(folder, name.replace("_", "-"))
            put(path, f"#!/bin/sh\n{text}\n")
            os.chmod(path, 0o755)
        return unittest.mock.patch.dict(os.environ, PATH=os.path.abspath(folder))

    def test_no_maker(self):
        with self.path_with("bare"):
            self.expect(3, "plot", "report", "--out", "bare.png")
            self.expect(3, "race", "--instances", ".", "--proposals", 5, "--plot", "bare.pdf")
            self.assertFalse(os.path.exists("bare.png"))

    def test_other_makers(self):
        """Either program will do; one that fails leaves nothing."""
        copy = 'for svg; do test "$before" = --output && new=$svg; before=$svg; done; cp "$svg" "$new"'
        with self.path_with("with_cairo", cairosvg=copy):
            self.expect(0, "plot", "report", "--out", "one.pdf")
        self.assertEqual(text_of("one.pdf"), self.expect(0, "plot", "report"))
        with self.path_with("failing", rsvg_convert="echo 'it is broken' >&2; exit 1"):
            self.expect(7, "plot", "report", "--out", "two.png")
        self.assertFalse(os.path.exists("two.png"))
