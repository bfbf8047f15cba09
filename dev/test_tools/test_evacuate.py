"""evacuate: who has to move, and what is left if it is stopped."""
import os
import signal

from common import ANNEAL, ToolCase, begin, program, put, put_slow_program, text_of

# Process 0 can leave machine 0 for machine 1 alone, if process 1 goes to machine 2. Processes 2 to 9 stand on machine 3, where
# they cost something, and could stand on machine 4, where they cost nothing.
MODEL = """2
0 1
0 0
5
0 0 100 10 100 100 0 0 0 0 0
0 1 100 10 100 100 0 0 0 0 0
0 2 100 1 100 100 0 0 0 0 0
0 3 100 0 0 100 0 0 0 0 0
0 4 100 0 100 100 0 0 0 0 0
10
{services}10
0 1 10 1
1 1 1 0
{others}0
1 0 0
""".format(services="1 0\n" * 10, others="".join(f"{p} 1 0 0\n" for p in range(2, 10)))


class Evacuate(ToolCase):
    def test_others_go_back(self):
        put("tight", MODEL)
        put("start", "0 1 3 3 3 3 3 3 3 3\n")
        told = self.expect(0, "evacuate", "tight", "start", "closed", "--out", "emptied", "--budget", 30000, "--workers", 1)
        self.assertEqual(text_of("emptied"), "1 2 3 3 3 3 3 3 3 3\n", told)
        self.assertIn("went 1 of 1 processes of 1 closed machine\nothers 1 of 9 had to move\n", told)
        self.assertIn("process 1 of service 1 can't go back to machine 1: capacity 1 1 11 10\n", told)

    def test_no_checks(self):
        """Without checks nobody goes back, and that is told."""
        put("tight", MODEL)
        put("start", "0 1 3 3 3 3 3 3 3 3\n")
        words = ["--budget", 30000, "--workers", 1, "--checks", 0]
        told = self.expect(0, "evacuate", "tight", "start", "closed", "--out", "emptied", *words)
        self.assertIn("others 9 of 9 had to move\n", told)
        self.assertIn("can't go back to machine 3: not tried\n", told)

    def test_on_instances(self):
        """Nobody stays without a reason, nobody enters a closed machine, and no other can go back alone."""
        for seed in (1, 2):
            model, initial = self.make_instance(f"evacuated{seed}", 30, 300, 4, seed)
            put("half", " ".join(map(str, range(0, 30, 2))) + "\n")
            words = ["--out", "emptied", "--workers", 1, "--budget", 30000]
            run = begin("evacuate", model, initial, "half", *words)
            printed, error = run.communicate()
            self.assertIn(run.returncode, (0, 11), error)
            self.assertTrue(self.is_feasible(model, initial, "emptied", "--closed", "half"))
            start, now = text_of(initial).split(), text_of("emptied").split()
            staying = [p for p, machine in enumerate(now) if int(machine) % 2 == 0]
            self.assertEqual(run.returncode, 11 if staying else 0, printed)
            self.assertTrue(all(now[p] == start[p] for p in staying))
            others = [p for p, home in enumerate(start) if int(home) % 2 and now[p] != home]
            self.assertIn(f"others {len(others)} of ", printed)
            for p in others[:20]:
                put("one_back", " ".join(now[:p] + [start[p]] + now[p + 1:]) + "\n")
                self.assertFalse(self.is_feasible(model, initial, "one_back", "--closed", "half"), printed)

    def test_stopped(self):
        """Ctrl-C leaves the best list so far, judged and whole."""
        model, initial = self.make_instance("stopped", 30, 300, 4, 1)
        put("half", " ".join(map(str, range(0, 30, 2))) + "\n")
        # A program whose second run never ends.
        put_slow_program("slow", "! mkdir solved 2> /dev/null", ANNEAL)
        for by in (signal.SIGINT, signal.SIGTERM):
            if os.path.exists("solved"):
                os.rmdir("solved")
            run = begin("evacuate", model, initial, "half", "--out", "so_far", "--workers", 1, "--anneal", os.path.abspath("slow"))
            first = run.stderr.readline()
            self.wait_for(lambda: os.path.exists("slow.runs"), run)
            os.remove("slow.runs")
            run.send_signal(by)
            printed, error = run.communicate()
            self.assertIn("turn 1: ", first)
            self.assertIn(run.returncode, (0, 11), error)
            self.assertIn("evacuate: stopped in turn", error)
            self.assertTrue(self.is_feasible(model, initial, "so_far", "--closed", "half"))
            self.assertIn("went ", printed)
            _, judged = program("check", model, initial, "so_far", "--closed", "half")
            self.assertIn(judged, printed)
