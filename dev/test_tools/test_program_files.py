"""The program over files that change while they are read, and over pipes."""
import os
import random
import subprocess
import time

from common import PROGRAM, ToolCase, put, text_of

MACHINES = 400


def write_model(name, safety, requirement, way):
    """One resource, machines with one safety capacity, and two processes with one requirement."""
    ways = " ".join([str(way)] * MACHINES)
    machines = "".join(f"0 {machine} 9 {safety} {ways}\n" for machine in range(MACHINES))
    put(name, f"1\n0 1\n{MACHINES}\n{machines}2\n1 0\n1 0\n2\n0 {requirement} 1\n1 {requirement} 1\n0\n1 1 1\n")


class ProgramFiles(ToolCase):
    @classmethod
    def setUpClass(cls):
        super().setUpClass()
        write_model("one", 0, 5, 10000001)
        write_model("another", 3, 9, 10000002)
        put("list", "0 1\n")
        began = time.monotonic()
        cls.one = cls.answer("one")
        cls.longest = time.monotonic() - began
        cls.another = cls.answer("another")

    @staticmethod
    def answer(model, change=lambda: None):
        """What `check` answers, if something changes after a while."""
        words = [PROGRAM, "check", model, "list", "list"]
        with subprocess.Popen(words, stdout=subprocess.PIPE, stderr=subprocess.STDOUT, text=True) as check:
            change()
            return check.communicate()[0]

    def changed(self, count, wanted, change):
        """So many answers while something changes at some moment: each has to be one of those wanted."""
        chance = random.Random(1)
        for _ in range(count):
            put("moving", text_of("one"))
            put("next", text_of("another"))
            wait = chance.random() * self.longest
            self.assertIn(self.answer("moving", lambda: (time.sleep(wait), change())), wanted)

    def test_alone(self):
        self.assertTrue(self.one.startswith("cost "))
        self.assertNotEqual(self.one, self.another)

    def test_replaced(self):
        """A model is replaced by rename: the answer is that of the one or of the other."""
        self.changed(30, [self.one, self.another], lambda: os.rename("next", "moving"))

    def test_removed(self):
        self.changed(15, [self.one, "read fault: moving\n"], lambda: os.remove("moving"))

    def test_pipes(self):
        """A pipe can be read, once."""
        check = f"'{PROGRAM}' check {{}} list list"
        for command in (f"cat one | {check.format('/dev/stdin')}", f"{check.format('/dev/stdin')} < one",
                        check.format("<(cat one)")):
            ran = subprocess.run(["bash", "-c", command], stdout=subprocess.PIPE, stderr=subprocess.STDOUT, text=True)
            self.assertEqual(ran.stdout, self.one, command)
