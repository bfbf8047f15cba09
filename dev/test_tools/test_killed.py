"""A tool that is killed leaves nothing that runs, and the next call removes its folder."""
import os
import signal
import time
import unittest.mock

from common import ANNEAL, ToolCase, begin, put_slow_program, text_of


class Killed(ToolCase):
    def setUp(self):
        place = unittest.mock.patch.dict(os.environ, TMPDIR=os.path.abspath("tmp"))
        place.start()
        self.addCleanup(place.stop)
        os.makedirs("tmp", exist_ok=True)
        put_slow_program("slow", '[ "$1" = repair ]')
        put_slow_program("still", "true", ANNEAL)
        for name in ("slow.runs", "still.runs"):
            if os.path.exists(name):
                os.remove(name)

    def is_alive(self, process):
        try:
            with open(f"/proc/{process}/stat", encoding="utf-8") as file:
                return file.read().rpartition(")")[2].split()[0] not in "ZX"
        except OSError:
            return False

    def expect_end(self, tool, words, by):
        option, name = ("--program", "slow") if tool == "repair_words" else ("--anneal", "still")
        run = begin(tool, *words, option, os.path.abspath(name))
        self.addCleanup(run.communicate)
        self.addCleanup(run.kill)
        self.wait_for(lambda: os.path.exists(f"{name}.runs"), run)
        process = int(text_of(f"{name}.runs"))
        os.remove(f"{name}.runs")
        self.assertTrue(self.is_alive(process))
        run.send_signal(by)
        run.wait(timeout=600)
        end = time.monotonic() + 600
        while self.is_alive(process):
            self.assertLess(time.monotonic(), end, f"{tool} left its program running")
            time.sleep(0.01)

    CALLS = (("improve", ["model", "initial", "--out", "best"]), ("evacuate", ["model", "initial", "closed", "--out", "emptied"]),
             ("repair_words", ["model", "crowded", "--out", "repaired"]))

    def test_killed(self):
        for tool, words in self.CALLS:
            self.expect_end(tool, words, signal.SIGKILL)
            self.assertEqual(len(os.listdir("tmp")), 1)
        self.expect(0, "repair_words", "model", "crowded", "--out", "repaired")
        self.assertEqual(os.listdir("tmp"), [])

    def test_hangup(self):
        """A terminal that is closed ends the tool as Ctrl-C does."""
        for by in (signal.SIGHUP, signal.SIGTERM):
            self.expect_end("evacuate", self.CALLS[1][1], by)
            self.assertEqual(os.listdir("tmp"), [])

    def test_others_stay(self):
        """The folder of a tool that runs stays."""
        run = begin("improve", "model", "initial", "--out", "best", "--anneal", os.path.abspath("still"))
        self.addCleanup(run.communicate)
        self.addCleanup(run.kill)
        self.wait_for(lambda: os.path.exists("still.runs"), run)
        self.expect(0, "repair_words", "model", "crowded", "--out", "repaired")
        self.assertEqual(len(os.listdir("tmp")), 1)
