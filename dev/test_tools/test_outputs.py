"""No room on the disk, nobody who reads, and Ctrl-C: only whole files are left."""
import os
import signal

from common import ToolCase, begin, is_ready, put, stop, text_of


class Outputs(ToolCase):
    def is_list(self, name, processes):
        text = text_of(name)
        return text.endswith("\n") and len(text.split()) == processes

    def test_no_room(self):
        self.expect(7, "improve", "model", "initial", "--out", "full", "--tries", 50, size=4, begun=True)
        self.expect(7, "evacuate", "model", "initial", "closed", "--out", "full", "--budget", "0", size=4)
        self.expect(7, "repair_words", "model", "crowded", "--out", "full", size=4, begun=True)
        self.expect(7, "summary", "report", "model", "initial", size=4)
        self.expect(7, "plot", "report", "--out", "full", size=4)
        self.assertFalse(os.path.exists("full"))

    def test_full(self):
        with open("/dev/full", "w", encoding="utf-8") as full:
            for tool in ("summary", "plot", "improve"):
                self.expect(7, tool, "--help", out=full)
                self.expect(7, tool, "--version", out=full)
            self.expect(7, "summary", "report", "model", "initial", out=full)
            self.expect(7, "plot", "report", out=full)
            self.expect(7, "improve", "model", "initial", "--out", "told", "--tries", 50, out=full, begun=True)
            self.expect(7, "evacuate", "model", "initial", "closed", "--out", "told", "--budget", "0", out=full, begun=True)
            self.expect(7, "repair_words", "model", "crowded", "--out", "told", out=full, begun=True)
        self.assertTrue(self.is_list("told", 3))

    def test_nobody_reads(self):
        reader, writer = os.pipe()
        os.close(reader)
        self.expect(7, "summary", "report", "model", "initial", out=writer)
        os.close(writer)

    def test_stopped(self):
        model, initial = self.make_instance("small", 20, 100, 3, 1)
        for by in (signal.SIGINT, signal.SIGTERM):
            run = begin("improve", model, initial, "--out", "stopped", "--workers", 1)
            status, printed, error = stop(run, 0.3, by)
            self.assertNotIn("Traceback", error)
            self.assertIn(status, (0, 130))
            if status == 0:
                self.assertEqual(len(printed.splitlines()), 7)
                self.assertTrue(self.is_list("stopped", 100))
        put("far", " ".join(str(i % 3) for i in range(100)) + "\n")
        for tool, words in (("evacuate", [model, initial, "closed"]), ("repair_words", [model, "far"])):
            status, printed, error = stop(begin(tool, *words, "--out", "stopped2"))
            self.assertNotIn("Traceback", error)
            self.assertIn(status, (0, 11, 130))
            if os.path.exists("stopped2"):
                self.assertTrue(self.is_list("stopped2", 100))

    def test_plot_stopped(self):
        os.mkfifo("pipe")
        run = begin("plot", "--out", "never", "pipe")
        self.wait_for(lambda: is_ready(run.pid), run)
        run.send_signal(signal.SIGINT)
        _, error = run.communicate()
        self.assertEqual((run.returncode, error), (130, "plot: stopped\n"))
        self.assertFalse(os.path.exists("never"))
