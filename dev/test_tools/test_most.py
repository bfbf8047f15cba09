"""evacuate --most: as many empty machines as can be, the dearest first."""
import os
import random
import time

from common import begin, put, text_of
from fleet_cases import FleetCase
from reassign_tools.emptying import Emptying
from reassign_tools.files import read_list
from reassign_tools.models import Model


class Most(FleetCase):
    def most(self, *words, status=0):
        return self.expect(status, "evacuate", *words, "--most", "--out", "out", begun=True)

    def test_shifts(self):
        """What is kept while processes are shifted is what the list says, and what may go breaks no rule of the program."""
        model_name, start_name = self.make_instance("instance", 12, 60, 3, 4)
        model, start, chance = Model.read(model_name), read_list(start_name), random.Random(3)
        emptying = Emptying(model, start, [machine == 3 for machine in range(12)], [0] * 12)
        put("shut", "3\n")
        tried = 0
        for _ in range(60):
            process, machine = chance.randrange(60), chance.randrange(12)
            if machine != emptying.now[process]:
                may = emptying.may_go(process, machine)
                put("now", " ".join(map(str, [*emptying.now[:process], machine, *emptying.now[process + 1:]])))
                self.assertEqual(self.is_feasible(model_name, start_name, "now", "--closed", "shut"), may, (process, machine))
                if may:
                    emptying.go(process, machine)
                    tried += 1
            fresh = Emptying(model, emptying.now, emptying.closed, [0] * 12)
            self.assertEqual((emptying.use, emptying.on, emptying.there, emptying.spread, +emptying.in_hood),
                             (fresh.use, fresh.on, fresh.there, fresh.spread, +fresh.in_hood))
            self.assertEqual(emptying.held, model.left_behind(start, emptying.now))
        self.assertGreater(tried, 10)
        emptying.take_back()
        self.assertEqual((emptying.now, emptying.use), (start, model.use(start)))

    def test_most(self):
        model, start = self.make_instance("hall", 30, 240, 3, 2)
        put("shut", "4 5\n")
        told = self.most(model, start, "shut", "--seconds", 2)
        closed, now = read_list("out.closed"), read_list("out")
        self.assertTrue(self.is_feasible(model, start, "out", "--closed", "out.closed"))
        emptied = {int(one) for one in told.splitlines()[0].partition("before: ")[2].split(", ")}
        self.assertFalse(emptied & set(now))
        self.assertEqual(set(closed), emptied | {4, 5})
        self.assertGreater(len(emptied), 8)
        self.assertIn(f"\ncost {self.cost(model, start, 'out')}\n", told)
        home = read_list(start)
        self.assertTrue(all(machine == there for there, machine in zip(home, now) if machine in (4, 5)))

    def test_prices(self):
        """The dearest machine goes first, and it is told what those that are empty cost together."""
        self.write_fleet("fleet", machines="machine,zone,rack,cpu,memory,price\na1,a,r1,16,64Gi,1.5\na2,a,r2,16,64Gi,20\nb1,a,r3,16,64Gi,3\n",
                         services="service,spread,depends_on,cpu,memory\nweb,1,,500m,1.5G\ndb,1,,2,8Gi\n")
        self.pack()
        if os.path.exists("out.closed"):
            os.unlink("out.closed")
        told = self.most("packed/model", "packed/initial", "--names", "packed/names.json", "--seconds", 2, "--closed-out", "shut")
        self.assertTrue(told.startswith("empty 1 of 3 machines, of which 0 were before: a2\nprice 20 of 24.5 together (81.6 %)\n"
                                        "cpu 16 of 48 together (33.3 %)\n"), told)
        self.assertEqual((text_of("shut"), os.path.exists("out.closed")), ("1\n", False))
        self.assertEqual(read_list("out")[1], 2)

    def test_large(self):
        """Three hundred machines take half a minute at most."""
        model, start = self.make_instance("large", 300, 2000, 3, 1)
        began = time.monotonic()
        self.most(model, start, "--seconds", 15)
        self.assertLess(time.monotonic() - began, 45)
        self.assertTrue(self.is_feasible(model, start, "out", "--closed", "out.closed"))

    def test_words(self):
        self.expect(2, "evacuate", "model", "initial", "--out", "out")
        self.expect(2, "evacuate", "model", "initial", "--most", "--out", "out", "--closed-out", "out")
        self.expect(6, "evacuate", "model", "crowded", "--most", "--out", "out")
        begun = begin("evacuate", "model", "initial", "--most", "--out", "out", "--seconds", 1)
        self.assertIn("moved ", begun.communicate()[0])
