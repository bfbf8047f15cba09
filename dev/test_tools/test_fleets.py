"""Tables that are packed, and tables that are none: each mistake is told with its place, and nothing is written."""
import json
import os
import resource

from common import program, put, run, text_of, tool_path
from fleet_cases import EXAMPLE, MACHINES, PROCESSES, SERVICES, SETTINGS, FleetCase
from reassign_tools import Fleet, Model, check
from reassign_tools.fleets.mistakes import FleetMistakes


class Packing(FleetCase):
    def test_files(self):
        printed = self.pack()
        self.assertEqual(text_of("packed/initial"), "0 1 0\n")
        self.assertEqual(text_of("packed/closed").split(), [])
        model = Model.read("packed/model")
        self.assertEqual(model.capacity, [[16000, 65536]] * 3)
        self.assertEqual(model.safety, [[12800, 52428]] * 3)
        self.assertEqual(model.required, [[500, 1431], [500, 1431], [2500, 8192]])
        self.assertEqual((model.hoods, model.locations, model.transient), ([0, 0, 1], [0, 1, 2], [0, 1]))
        self.assertEqual((model.spreads, model.needs, model.service), ([2, 1], [[1], []], [0, 0, 1]))
        self.assertEqual((model.move_cost, model.weights), ([1, 3, 1], [1, 10, 1]))
        self.assertEqual(model.ways, [b"0 2 5", b"2 0 5", b"5 5 0"])
        names = json.loads(text_of("packed/names.json"))
        self.assertEqual(names["machines"], ["a1", "a2", "b1"])
        self.assertIn('unit = "1Mi"\ntransient = true\nload_weight = 1\nsafety = 0.8\n', printed)
        self.assertIn('unit = "1m"\ntransient = false\nload_weight = 4\nsafety = 0.8\n', printed)
        self.assertIn("packed 3 machines (0 closed), 2 services, 3 processes into packed", printed)
        self.assertEqual(program("check", "packed/model", "packed/initial", "packed/initial")[0], 0)

    def test_printed_settings_are_settings(self):
        for settings in (SETTINGS, None, text_of(os.path.join(EXAMPLE, "settings.toml"))):
            self.write_fleet("fleet", settings=settings)
            printed = self.pack(out="one")
            put("fleet/settings.toml", printed.split("\nnote")[0].split("\npacked")[0])
            self.assertEqual(self.pack(out="two").split("\nnote")[0].split("\npacked")[0],
                             printed.split("\nnote")[0].split("\npacked")[0])
            self.assertEqual(text_of("one/model"), text_of("two/model"))

    def test_defaults(self):
        self.write_fleet("fleet", settings=None)
        printed = self.pack()
        for line in ('unit = "1m"', 'unit = "1Mi"', 'neighbourhood = "zone"', 'location = "rack"', "elsewhere = 5"):
            self.assertIn(line, printed)

    def test_byte_order_mark_and_line_ends(self):
        self.pack(out="plain")
        texts = {"machines": MACHINES, "services": SERVICES, "processes": PROCESSES, "settings": SETTINGS}
        self.write_fleet("fleet", **{name: b"\xef\xbb\xbf" + text.replace("\n", "\r\n").encode() for name, text in texts.items()})
        self.pack()
        for file in ("model", "initial", "closed"):
            self.assertEqual(text_of(f"packed/{file}"), text_of(f"plain/{file}"))

    def test_order_of_columns_and_quotes(self):
        self.write_fleet("fleet", processes='cpu, machine ,process,service\n,a1,"web, 0",web\n\n,a2,"say ""web"" 1",web\n2500m,a1,db-0,db\n')
        self.pack()
        self.assertEqual(json.loads(text_of("packed/names.json"))["processes"], ["web, 0", 'say "web" 1', "db-0"])
        self.assertEqual(text_of("packed/initial"), "0 1 0\n")

    def test_ring(self):
        self.write_fleet("fleet", services=SERVICES.replace("db,1,,", "db,1,web,"))
        self.assertIn("note: services.csv:2: services depend on each other in a ring: 'web' > 'db' > 'web'; ", self.pack())
        self.assertEqual(Model.read("packed/model").needs, [[1], [0]])

    def test_rounding_is_told(self):
        self.write_fleet("fleet", settings=SETTINGS.replace('"1m"', '"1"'))
        self.assertIn("note: cpu: rounding up to whole units of 1 changes 2 amounts by more than a hundredth, most of all "
                      "services.csv:2: 500m becomes 1 in column 4 'cpu'; processes.csv:4: 2500m becomes 3 in column 5 'cpu'\n", self.pack())

    def test_ways(self):
        settings = SETTINGS + '[ways]\nelsewhere = 9\nfile = "ways.csv"\n'
        self.write_fleet("fleet", settings=settings)
        put("fleet/ways.csv", "from,to,cost\na,b,7\na1,b1,4\n")
        self.pack()
        self.assertEqual(Model.read("packed/model").ways, [b"0 2 4", b"2 0 7", b"9 9 0"])

    def test_closed_and_safety_column(self):
        machines = "machine,zone,rack,cpu,safe,memory,state\na1,a,r1,16,15.5,64Gi,closed\na2,a,r2,16,15,64Gi,open\nb1,b,r3,16,14,64Gi,\n"
        self.write_fleet("fleet", machines=machines, settings=SETTINGS.replace('"1m"', '"1m"\nsafety = "safe"'))
        self.assertIn("(1 closed)", self.pack())
        self.assertEqual(text_of("packed/closed"), "0\n")
        self.assertEqual([row[0] for row in Model.read("packed/model").safety], [15500, 15000, 14000])

    def test_balance_of_amounts(self):
        self.write_fleet("fleet", settings=SETTINGS + '[[balance]]\nfirst = "cpu"\nsecond = "memory"\ntarget = "4Gi"\n')
        self.assertIn("note: settings.toml:12: 4Gi of memory for each 1 of cpu are 4.096 units", self.pack())
        self.assertEqual(Model.read("packed/model").balances, [[0, 1, 4, 1]])

    def test_weights(self):
        """A per cent of each resource costs alike by default; settings change that, and a sum of capacities is all that counts."""
        machines = "machine,zone,rack,cpu,memory,gpu\na1,a,r1,16,64Gi,8\na2,a,r2,16,64Gi,0\nb1,b,r3,16,64Gi,0\n"
        services = "service,spread,depends_on,cpu,memory,gpu\nweb,2,db,500m,1.5G,0\ndb,1,,2,8Gi,1\n"
        self.write_fleet("fleet", machines=machines, services=services, settings=None)
        self.pack()
        model = Model.read("packed/model")
        totals = [sum(row[r] for row in model.capacity) for r in range(3)]
        costs = [total * weight for total, weight in zip(totals, model.load_weights)]
        self.assertLess(max(costs), 1.06 * min(costs), model.load_weights)
        self.write_fleet("fleet", machines=machines, services=services, settings='[[resource]]\nname = "cpu"\n[[resource]]\nname = "memory"\n'
                         '[[resource]]\nname = "gpu"\nload_weight = 7\n')
        self.pack()
        self.assertEqual(Model.read("packed/model").load_weights[2], 7)
        self.write_fleet("later", machines=machines.replace("b1,b,r3,16", "b1,b,r3,32"), services=services,
                         settings=text_of("fleet/settings.toml"))
        self.assertEqual(self.named("diff", "fleet", "later", status=12)[1], ["machine 'b1': capacity of cpu is 32 and was 16"])

    def test_zone_that_is_a_slip(self):
        note = "note: machines.csv:4: only machine 'b1' is in 'eu-wets' (is it 'eu-west'?); column 2 'zone'"
        for zone, is_told in (("eu-wets", False), ("eu-wes", True), ("eu-wesst", True), ("eu-wexst", True), ("eu-east", False), ("us", False)):
            self.write_fleet("fleet", machines=MACHINES.replace(",a,", ",eu-west,").replace(",b,", f",{zone},"))
            self.assertEqual(note.replace("eu-wets", zone) in self.pack(), is_told, zone)

    def test_price_and_skew(self):
        """They are no resources, and have to be numbers."""
        self.write_fleet("fleet", machines=MACHINES.replace("state", "price").replace("64Gi,open", "64Gi,1.25"), settings=None,
                         services=SERVICES.replace("depends_on", "depends_on,skew").replace("db,500m", "db,1,500m").replace("1,,2", "1,,,2"))
        self.assertNotIn('name = "price"', self.pack())
        self.assertEqual(Model.read("packed/model").resources, 2)
        lines = self.mistakes(machines=MACHINES.replace("state", "price").replace("64Gi,open", "64Gi,much"),
                              services=SERVICES.replace("depends_on", "depends_on,skew").replace("db,500m", "db,x,500m").replace("1,,2", "1,,,2"))
        self.assertEqual(lines, ["machines.csv:3: machine 'a2': 'much' is no amount (write it as 16, 0.5, 500m, 64Gi or 1.5G); column 6 'price'",
                                 "services.csv:2: service 'web': skew: 'x' is no whole number from 0 to 4,294,967,295; column 4 'skew'"])

    def test_open_quote(self):
        """The rows after a quotation mark that isn't closed are read all the same."""
        lines = self.mistakes(processes=PROCESSES.replace("web-0,web", '"web-0,web').replace("db-0,db,a1", "db-0,db,nowhere"))
        self.assertEqual([line.split(": ")[0] for line in lines], ["processes.csv:2", "processes.csv:4"], lines)
        self.assertIn("a quotation mark is not closed", lines[0])

    def test_numbers_that_are_too_long(self):
        zeros = "0" * 5000
        self.write_fleet("fleet", processes=PROCESSES.replace("a2,3", f"a2,{zeros}3"))
        self.pack()
        self.mistakes(processes=PROCESSES.replace("a2,3", f"a2,{'9' * 5000}"))
        self.mistakes(settings=SETTINGS + f"move_cost = {'9' * 5000}\n")
        self.mistakes(settings=SETTINGS.replace('unit = "1m"', "safety = 1e-999999999"))
        self.mistakes(settings=SETTINGS + "x = " + "[" * 5000)

    def test_packing_again(self):
        self.pack()
        self.write_fleet("fleet", processes=PROCESSES.replace("web-1,web,a2", "web-1,web,b1"))
        self.pack()
        self.assertEqual(text_of("packed/initial"), "0 2 0\n")

    def test_no_output_over_an_input(self):
        os.link("fleet/machines.csv", "fleet/model")
        _, lines = self.named("pack", "fleet", "fleet", status=2)
        self.assertEqual((lines, text_of("fleet/machines.csv")), ([], MACHINES))

    def test_no_output_into_the_input(self):
        os.mkdir("links")
        os.symlink("../fleet", "links/fleet")
        for out in ("fleet", "./fleet/", "links/fleet"):
            self.named("pack", "fleet", out, status=2)
            self.assertEqual(sorted(os.listdir("fleet")), ["machines.csv", "processes.csv", "services.csv", "settings.toml"])

    def test_names_of_any_letters(self):
        self.write_fleet("fleet", processes=PROCESSES.replace("web-0", "wëb-0").replace("a2", "a2"))
        self.pack()
        ran = run(tool_path("named"), "list", "packed", "packed/initial", env={**os.environ, "PYTHONIOENCODING": "ascii"})
        self.assertEqual((ran.returncode, ran.stdout.splitlines()[1]), (0, "wëb-0,a1"))

    def test_full_disk(self):
        self.expect(7, "named", "pack", "fleet", "packed", size=100)
        self.assertFalse(os.path.exists("packed"))
        self.pack()
        before = {name: text_of(f"packed/{name}") for name in os.listdir("packed")}
        self.write_fleet("fleet", processes=PROCESSES.replace("web-1,web,a2", "web-1,web,b1"))
        self.expect(7, "named", "pack", "fleet", "packed", size=300)
        self.assertEqual({name: text_of(f"packed/{name}") for name in os.listdir("packed")}, before)

    def test_call(self):
        fleet = Fleet.read("fleet")
        self.assertEqual(check(fleet.model(), fleet.initial, closed=fleet.closed).cost, 0)
        self.assertEqual([one.name for one in fleet.processes], ["web-0", "web-1", "db-0"])

    def test_example(self):
        printed = self.named("pack", EXAMPLE, "packed")[0]
        self.assertIn("packed 24 machines (0 closed), 8 services, 60 processes into packed", printed)

    def test_large(self):
        """5,000 machines and 50,000 processes in less than a minute of processor time."""
        machines = "".join(f"m{m},z{m % 10},r{m % 250},64,256Gi\n" for m in range(5000))
        services = "".join(f"s{s},1,,{s % 3000 + 100}m,{s % 15 + 1}Gi\n" for s in range(12500))
        processes = "".join(f"p{p},s{p // 4},m{p % 5000}\n" for p in range(50000))
        self.write_fleet("fleet", machines="machine,zone,rack,cpu,memory\n" + machines, settings=None,
                         services="service,spread,depends_on,cpu,memory\n" + services,
                         processes="process,service,machine\n" + processes)
        before = resource.getrusage(resource.RUSAGE_CHILDREN)
        self.pack()
        after = resource.getrusage(resource.RUSAGE_CHILDREN)
        self.assertLess(after.ru_utime + after.ru_stime - before.ru_utime - before.ru_stime, 60)
        self.assertEqual(len(text_of("packed/initial").split()), 50000)


class Mistakes(FleetCase):
    def test_all_at_once(self):
        lines = self.mistakes(
            machines=MACHINES.replace("a2,a,r2,16,64Gi,open", "a2,a,r2,16 cores,64Gi,clsed"),
            services=SERVICES.replace("db,1,,", "db,-1,dbb,"),
            processes=PROCESSES.replace("web-1,web,a2", "web-0,wbe,a22"))
        self.assertEqual(lines, [
            "machines.csv:3: machine 'a2': '16 cores' is no amount (write it as 16, 0.5, 500m, 64Gi or 1.5G); column 4 'cpu'",
            "machines.csv:3: machine 'a2': 'clsed' is no state; it is open or closed (is it 'closed'?); column 6 'state'",
            "services.csv:3: service 'db': spread: '-1' is no whole number from 0 to 4,294,967,295; column 2 'spread'",
            "services.csv:3: service 'db' depends on 'dbb', and there is no such service (is it 'db'?); column 3 'depends_on'",
            "processes.csv:3: process 'web-0' stands in line 2 already; column 1 'process'",
            "processes.csv:3: process 'web-0': no service 'wbe' (is it 'web'?); column 2 'service'",
            "processes.csv:3: process 'web-0': no machine 'a22' (is it 'a2'?); column 3 'machine'",
        ])

    def test_names_twice(self):
        self.assertEqual(self.mistakes(machines=MACHINES.replace("a2,a", "a1,a"), processes=PROCESSES.replace("a2", "a1")),
                         ["machines.csv:3: machine 'a1' stands in line 2 already; column 1 'machine'"])
        self.assertEqual(self.mistakes(services=SERVICES + "db,1,,2,8Gi\n"),
                         ["services.csv:4: service 'db' stands in line 3 already; column 1 'service'"])

    def test_columns(self):
        self.assertEqual(self.mistakes(machines=MACHINES.replace("rack", "rak")),
                         ["machines.csv:1: no column 'rack' (is it 'rak'?)",
                          "machines.csv:1: column 'rak' means nothing here (is it 'rack'?); if it is to be passed over, name it in "
                          "`ignored` of settings.toml; column 3"])
        self.assertEqual(self.mistakes(services="service,spread,depends_on,memory\nweb,2,db,1Gi\ndb,1,,1Gi\n",
                                       processes="process,service,machine\nweb-0,web,a1\n"),
                         ["services.csv:1: no column 'cpu', and processes.csv has none"])
        self.assertEqual(self.mistakes(processes="process,service,machine,machine\n"),
                         ["processes.csv:1: the table has no process", "processes.csv:1: two columns are named 'machine'; column 4"])
        self.assertEqual(self.mistakes(processes=PROCESSES.replace(",", ";")),
                         ["processes.csv:1: the columns are separated by semicolons; save the table with commas between them"])

    def test_cells(self):
        self.assertEqual(self.mistakes(machines=MACHINES.replace("a2,a,r2,16,64Gi,open", "a2,a,r2,16")),
                         ["machines.csv:3: 4 cells in a table of 6 columns: none for 'memory', 'state'"])
        self.assertEqual(self.mistakes(processes=PROCESSES.replace("db-0,", '"db-0,')),
                         ["processes.csv:4: a quotation mark is not closed"])
        self.assertEqual(self.mistakes(services=SERVICES.replace("web,2,db,500m", "web,2,db,")),
                         [f"processes.csv:{line}: process 'web-{at}' has no cpu, and neither has service 'web'; column 5"
                          for line, at in ((2, 0), (3, 1))])
        self.assertEqual(self.mistakes(processes=PROCESSES.replace("web-0", "")),
                         ["processes.csv:2: this process has no name; column 1 'process'"])
        self.assertEqual(self.mistakes(settings=SETTINGS.replace('"1Mi"', '"1"')),
                         [f"machines.csv:{line}: machine '{name}': 64Gi is 68,719,476,736 times the unit 1, and at most 4,294,967,295 are "
                          "possible; give memory a larger unit; column 5 'memory'" for line, name in ((2, "a1"), (3, "a2"), (4, "b1"))]
                         + ["services.csv:3: service 'db': 8Gi is 8,589,934,592 times the unit 1, and at most 4,294,967,295 are possible; "
                            "give memory a larger unit; column 5 'memory'"])

    def test_files(self):
        for file in ("machines", "services", "processes"):
            lines = self.mistakes(**{file: b""})
            self.assertIn(f"{file}.csv:1: the file is empty; its first line has to name the columns", lines)
            self.assertEqual(self.mistakes(status=3, **{file: None}), [f"{file}.csv: there is no such file"])
        self.assertEqual(self.mistakes(machines=MACHINES.encode("utf-16")),
                         ["machines.csv:1: the file is written in UTF-16; save it as UTF-8; column 1"])
        self.assertEqual(self.mistakes(machines=MACHINES.encode().replace(b"a2", b"\xe42")),
                         ["machines.csv:3: character 1 of the line is the byte 0xe4, which is no UTF-8; save the file as UTF-8; column 1"])

    def test_settings(self):
        line, = self.mistakes(settings="[[resource]\n")
        self.assertRegex(line, r"^settings\.toml:1: no TOML: .*; column 1[12]$")
        lines = self.mistakes(settings=SETTINGS + 'saftey = 2\nload_weight = -1\n\n[weigths]\nprocess = 1\n\n[[balance]]\nfirst = "cpu"\n'
                              'second = "memry"\nweight = true\n')
        self.assertEqual(lines, [
            "settings.toml:9: no setting 'saftey' of [resource] (is it 'safety'?); column 1",
            "settings.toml:10: load_weight has to be a whole number from 0 to 4,294,967,295; column 1",
            "settings.toml:12: no setting 'weigths' (is it 'weights'?); column 1",
            "settings.toml:17: no resource 'memry' (is it 'memory'?); column 1",
            "settings.toml:18: weight has to be a whole number from 0 to 4,294,967,295; column 1"])
        self.assertEqual(self.mistakes(settings=SETTINGS + '[[balance]]\nfirst = "cpu"\nsecond = "memry"\n'),
                         ["settings.toml:11: no resource 'memry' (is it 'memory'?); column 1"])
        self.assertEqual(self.mistakes(settings=SETTINGS + 'safety = 1.5\n'),
                         ["settings.toml:9: safety has to be a share of the capacity from 0 to 1, or the name of a column; column 1"])

    def test_ways(self):
        self.write_fleet("wrong")
        put("wrong/ways.csv", "from,to,cost\na,bb,7\na1,b,4\na,b,much\n")
        lines = self.mistakes(settings=SETTINGS + '[ways]\nfile = "ways.csv"\n')
        self.assertEqual(lines, ["ways.csv:2: 'bb' is no machine, location or neighbourhood (is it 'b'?); column 2 'to'",
                                 "ways.csv:3: 'a1' and 'b' aren't both machines, locations or neighbourhoods; column 2 'to'",
                                 "ways.csv:4: 'much' is no whole number from 0 to 4,294,967,295; column 3 'cost'"])

    def test_limits(self):
        names = ",".join(f"r{at}" for at in range(21))
        ones = ",".join(["1"] * 21)
        lines = self.mistakes(settings=None, machines=f"machine,zone,rack,{names}\na1,a,r,{ones}\n",
                              services=f"service,spread,depends_on,{names}\nweb,1,,{ones}\n", processes="process,service,machine\nw,web,a1\n")
        self.assertEqual(lines, ["machines.csv:1: 21 resources; at most 20 are possible"])
        lines = self.mistakes(machines="machine,zone,rack,cpu,memory\n" + "".join(f"m{at},a,r,16,64Gi\n" for at in range(5001)),
                              processes=PROCESSES.replace("a1", "m1").replace("a2", "m2"))
        self.assertEqual(lines, ["machines.csv:5002: 5,001 machines; at most 5,000 are possible"])
        lines = self.mistakes(services="service,spread,depends_on,cpu,memory\n" + "".join(f"s{at},1,,1,1Gi\n" for at in range(50001)),
                              processes="process,service,machine\n" + "".join(f"p{at},s{at},a1\n" for at in range(50001)))
        self.assertEqual(lines, ["services.csv:50002: 50,001 services; at most 50,000 are possible",
                                 "processes.csv:50002: 50,001 processes; at most 50,000 are possible"])

    def test_many_of_a_kind(self):
        """The first 20 of each kind, how many more there are, and the count of all; in less than a minute of processor time."""
        self.write_fleet("wrong", services="service,spread,depends_on,cpu,memory\n"
                         + "".join(f"service-{at:05},1,,1,1Gi\n" for at in range(50000)),
                         processes="process,service,machine,move_cost,cpu\n" + "".join(f"p{at},servize-{at:05},a1,x,\n" for at in range(50000)))
        before = resource.getrusage(resource.RUSAGE_CHILDREN)
        ran = run(tool_path("named"), "pack", "wrong", "nothing")
        after = resource.getrusage(resource.RUSAGE_CHILDREN)
        self.assertLess(after.ru_utime + after.ru_stime - before.ru_utime - before.ru_stime, 60)
        lines = ran.stderr.splitlines()
        self.assertEqual((ran.returncode, len(lines)), (4, 43))
        self.assertEqual(lines[0], "processes.csv:2: process 'p0': no service 'servize-00000' (is it 'service-00000'?); column 2 'service'")
        self.assertEqual(lines[39], "processes.csv: and 49,980 more of this kind; column 2 'service'")
        self.assertEqual(lines[41:], ["processes.csv: and 49,980 more of this kind; column 4 'move_cost'",
                                      "named: 100,000 mistakes, so nothing is written"])

    def test_call(self):
        put("fleet/machines.csv", "")
        with self.assertRaises(FleetMistakes) as raised:
            Fleet.read("fleet")
        self.assertEqual([one.place.file for one in raised.exception.mistakes], ["machines.csv"])
        self.assertEqual(raised.exception.status, 4)
