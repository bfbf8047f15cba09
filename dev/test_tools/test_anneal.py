"""`anneal` over random instances, beside the second implementation: each call twice, and once on one processor."""
import os
import sys
import unittest

from common import ANNEAL, PROGRAM, ROOT, SAMPLE, ToolCase, run


@unittest.skipUnless(os.access(ANNEAL, os.X_OK), "anneal isn't made: ./anneal or `rt ci` makes it")
class Anneal(ToolCase):
    def test_instances(self):
        ran = run(sys.executable, os.path.join(ROOT, "bench", "compare_anneal.py"), ANNEAL, 1, 8)
        self.assertEqual((ran.returncode, ran.stderr), (0, ""), ran.stdout)
        self.assertIn("8 instances, no difference", ran.stdout)

    def test_goes_on(self):
        """A call goes on from the last list of another one, and `check` tells the costs that it tells."""
        model, initial = (os.path.join(SAMPLE, name) for name in ("model", "initial"))
        first = run(ANNEAL, model, initial, "3:500")
        self.assertEqual((first.returncode, first.stderr), (0, ""))
        with open("last", "w", encoding="utf-8") as file:
            file.write(first.stdout.splitlines()[11].removeprefix("last "))
        second = run(ANNEAL, model, initial, "--from", "last", "--heat", "10:0", "--workers", "2", "4:500")
        self.assertEqual((second.returncode, second.stderr), (0, ""))
        lines = second.stdout.splitlines()
        self.assertEqual(len(lines), 12)
        with open("best", "w", encoding="utf-8") as file:
            file.write(lines[10].removeprefix("assignment "))
        checked = run(PROGRAM, "check", model, initial, "best")
        self.assertEqual((checked.returncode, checked.stdout.splitlines()), (0, lines[:6]))

    def test_refusals(self):
        ran = run(ANNEAL, "model")
        self.assertEqual((ran.returncode, ran.stdout), (2, ""))
        self.assertTrue(ran.stderr.startswith("usage: anneal MODEL INITIAL "))
        ran = run(ANNEAL, os.path.join(SAMPLE, "model"), "none", "1:1")
        self.assertEqual((ran.returncode, ran.stderr), (3, "read fault: none\n"))
