"""What is told of hostile tables: each mistake once, with its place and what was meant, and nothing that isn't one."""
import os

from common import put
from fleet_cases import MACHINES, PROCESSES, SERVICES, SETTINGS, FleetCase
from reassign_tools import Fleet
from reassign_tools.fleets.mistakes import FleetMistakes
from reassign_tools.fleets.packed import Packed
from reassign_tools.fleets.packing import pack
from reassign_tools.fleets.rings import rings
from reassign_tools.problems import Problem

COLUMNS = "service,spread,depends_on,cpu,memory\n"


class MessageCase(FleetCase):
    def told(self, status=4, **texts):
        """The lines about a fleet that is none."""
        self.write_fleet("wrong", **texts)
        with self.assertRaises(FleetMistakes) as raised:
            Fleet.read("wrong")
        self.assertEqual(raised.exception.status, status)
        return raised.exception.lines

    def notes(self, **texts):
        self.write_fleet("right", **texts)
        return Fleet.read("right").notes


class Tables(MessageCase):
    def test_rows_that_are_too_short_or_long(self):
        self.assertEqual(self.told(machines=MACHINES.replace("a2,a,r2,16,64Gi,open", "a2,a,r2,16")),
                         ["machines.csv:3: 4 cells in a table of 6 columns: none for 'memory', 'state'"])
        self.assertEqual(self.told(machines=MACHINES.replace("a2,a,r2,16,64Gi,open", "a2,a,r2,16,64Gi,open,x,y")),
                         ["machines.csv:3: 8 cells in a table of 6 columns: 'x', 'y' in none"])

    def test_other_separators(self):
        for separator, word in ((";", "semicolons"), ("\t", "tabs")):
            line = f"machines.csv:1: the columns are separated by {word}; save the table with commas between them"
            self.assertEqual(self.told(machines=MACHINES.replace(",", separator)), [line])
            self.assertEqual(self.told(machines='"machine"' + MACHINES.replace(",", separator)[7:]), [line])

    def test_bytes(self):
        for mark in (b"", b"\xef\xbb\xbf"):
            self.assertEqual(self.told(machines=mark + MACHINES.encode().replace(b"a2,a", "ä2,".encode() + b"\xe4")),
                             ["machines.csv:3: character 4 of the line is the byte 0xe4, which is no UTF-8; save the file as UTF-8; column 2"])
        self.assertEqual(self.told(settings=SETTINGS.encode().replace(b"cpu", b"\xfc")),
                         ["settings.toml:2: character 9 of the line is the byte 0xfc, which is no UTF-8; save the file as UTF-8; column 9"])

    def test_empty_columns_at_the_end(self):
        wide = MACHINES.replace("\n", ",,\n")
        self.write_fleet("fleet", machines=wide + ",,,,,,,\n")
        self.assertEqual([one.name for one in Fleet.read("fleet").machines], ["a1", "a2", "b1"])
        self.assertEqual(self.notes(machines=MACHINES.replace("state\n", "state,,\n")), [])
        self.assertEqual(self.told(machines=wide.replace("open,", "open,x")),
                         ["machines.csv:3: 'x' stands in a column without a name; column 7"])
        self.assertEqual(self.told(machines=MACHINES.replace("a,", "a,,").replace("zone,", "zone,,").replace("b1,b", "b1,b,")),
                         ["machines.csv:1: this column has no name; column 3"])

    def test_amount_without_its_suffix(self):
        self.assertEqual(self.notes(machines=MACHINES.replace("a2,a,r2,16,64Gi", "a2,a,r2,16,64")),
                         ["memory: rounding down to whole units of 1Mi changes 1 amount by more than a hundredth, most of all "
                          "machines.csv:3: 64 becomes 0 (is it '64Gi'?) in column 5 'memory'"])


class References(MessageCase):
    def test_none_to_a_table_that_was_not_read(self):
        """Only what is wrong with the table itself is told, not the names that nobody could look for there."""
        processes = "process,service,machine\n" + "".join(f"p{at},s{at},m{at}\n" for at in range(9))
        self.assertEqual(self.told(machines=MACHINES + '"m1\n', services=COLUMNS + 'web,1,db,1,1Gi\ns1,1,,1,"1Gi\n', processes=processes),
                         ["machines.csv:5: a quotation mark is not closed", "services.csv:3: a quotation mark is not closed"])
        self.assertEqual(self.told(services=COLUMNS + 's1,1,,1,"1Gi"x\n'), ["services.csv:2: ',' expected after '\"'"])
        self.assertEqual(self.told(status=3, services=None, processes=processes), [
            "services.csv: there is no such file", *(f"processes.csv:{at + 2}: process 'p{at}': no machine 'm{at}'; column 3 'machine'"
                                                     for at in range(9))])

    def test_ways_of_machines_that_were_not_read(self):
        self.write_fleet("wrong")
        put("wrong/ways.csv", "from,to,cost\na1,m1,7\n")
        self.assertEqual(self.told(machines=MACHINES + "m1,a\n", settings=SETTINGS + '[ways]\nfile = "ways.csv"\n'),
                         ["machines.csv:5: 2 cells in a table of 6 columns: none for 'rack', 'cpu', 'memory', 'state'"])

    def test_several_services_in_a_cell(self):
        for cell, line in (
                ('"db,web"', "depends on 'db,web', and there is no such service (is it 'db;web'?); several services are separated by semicolons"),
                ("db web", "depends on 'db web', and there is no such service (is it 'db;web'?); several services are separated by semicolons"),
                ("dbb", "depends on 'dbb', and there is no such service (is it 'db'?)")):
            self.assertEqual(self.told(services=SERVICES.replace("web,2,db", f"web,2,{cell}")),
                             [f"services.csv:2: service 'web' {line}; column 3 'depends_on'"])


class Services(MessageCase):
    RING = "services depend on each other in a ring: {}; that is allowed, and each of them needs the next in its neighbourhood; column 3 'depends_on'"

    def test_each_ring(self):
        services = SERVICES.replace("db,1,,", "db,1,web,") + "x,1,y,1,1Gi\ny,1,z;web,1,1Gi\nz,1,x,1,1Gi\n"
        processes = PROCESSES + "".join(f"{name},{name},a1,,\n" for name in "xyz")
        self.assertEqual(self.notes(services=services, processes=processes), [
            "services.csv:2: " + self.RING.format("'web' > 'db' > 'web'"),
            "services.csv:4: " + self.RING.format("'x' > 'y' > 'z' > 'x'")])

    def test_itself(self):
        self.assertEqual(self.notes(services=SERVICES.replace("web,2,db", "web,2,db;web")),
                         ["services.csv:2: service 'web' depends on itself, which asks for nothing; column 3 'depends_on'"])

    def test_rings_of_many(self):
        count = 50000
        self.assertEqual(list(rings([[(at + 1) % count, at] for at in range(count)])), [(list(range(count)), count)])
        self.assertEqual(list(rings([[1, 2], [0], [1], [3], [0]])), [([0, 1], 3)])
        self.assertEqual(list(rings([[1], [2], []])), [])

    def test_without_processes(self):
        self.assertEqual(self.notes(services=SERVICES.replace("web,2,db", "web,2,none") + "none,1,,1,1Gi\nidle,0,,1,1Gi\n"), [
            "services.csv:2: service 'web' depends on 'none', which has no process: no list keeps that; column 3 'depends_on'",
            "services.csv:4: service 'none' has no process, and its spread asks for 1 location: no list keeps that; leave it out, or set "
            "its spread to 0; column 1 'service'",
            "services.csv:5: service 'idle' has no process; column 1 'service'"])


    def test_what_no_list_keeps(self):
        """A service with more processes than there are machines, and a process that no machine has room for."""
        many = "".join(f"web-{at},web,a1,,\n" for at in range(2, 6))
        self.assertEqual(self.notes(processes=PROCESSES + many + "large,db,b1,,64\n"), [
            "services.csv:2: service 'web' has 6 processes, and there are 3 machines, each for one of them: no list keeps that; "
            "column 1 'service'",
            "processes.csv:9: process 'large' requires more cpu than any machine has: no list keeps that; column 1 'process'"])


class SettingsOfFleets(MessageCase):
    def test_words_without_quotation_marks(self):
        settings = 'ignored = [owner, "team"]\n' + SETTINGS.replace('"cpu"', "cpu # cores").replace('"1m"', "1m").replace("true", "True")
        self.assertEqual(self.told(settings=settings), [
            "settings.toml:1: no TOML: '[owner, \"team\"]' can't be read; write ignored = [\"owner\", \"team\"]; column 11",
            "settings.toml:3: no TOML: 'cpu' can't be read; write name = \"cpu\"; column 8",
            "settings.toml:4: no TOML: '1m' can't be read; write unit = \"1m\"; column 8",
            "settings.toml:9: no TOML: 'True' can't be read; write transient = true; column 13"])

    def test_no_columns_by_settings_that_were_not_read(self):
        machines = MACHINES.replace("zone", "dc").replace("cpu", "gpu")
        for settings, line in (('neighbourhood = "dc\n', "settings.toml:1: no TOML: Illegal character '\\n'; column 20"),
                               ('neighborhood = "dc"\n', "settings.toml:1: no setting 'neighborhood' (is it 'neighbourhood'?); column 1")):
            self.assertEqual(self.told(settings=settings, machines=machines), [line])

    def test_columns_that_no_table_has(self):
        self.assertEqual(self.told(settings=SETTINGS.replace('"memory"', '"memry"')),
                         ["settings.toml:6: no table has a column 'memry' (is it 'memory'?); column 1"])
        self.assertEqual(self.told(settings='neighbourhood = ["zonee", "rack"]\n' + SETTINGS),
                         ["settings.toml:1: machines.csv has no column 'zonee' (is it 'zone'?); column 1"])
        self.assertEqual(self.told(settings=SETTINGS.replace('"1m"', '"1m"\nsafety = "safe"')),
                         ["settings.toml:4: machines.csv has no column 'safe'; column 1"])

    def test_ways_without_a_file(self):
        self.assertEqual(self.told(status=3, settings=SETTINGS + '[ways]\nfile = "ways.csv"\n'),
                         ["settings.toml:10: there is no file 'ways.csv' in the folder of the fleet; column 1"])
        put("wrong/way.csv", "from,to,cost\n")
        self.assertEqual(self.told(status=3, settings=SETTINGS + '[ways]\nfile = "ways.csv"\n'),
                         ["settings.toml:10: there is no file 'ways.csv' in the folder of the fleet (is it 'way.csv'?); column 1"])

    def test_ignored(self):
        self.assertEqual(self.notes(settings='ignored = ["owner", "statee"]\n' + SETTINGS), [
            "settings.toml:1: no table has the column 'owner' that `ignored` names; column 1",
            "settings.toml:1: no table has the column 'statee' that `ignored` names; column 1"])


class Folders(MessageCase):
    def test_missing(self):
        for command in (("pack", "nowhere", "out"), ("diff", "fleet", "nowhere")):
            self.assertEqual(self.named(*command, status=3)[1], ["there is no folder nowhere"])
        self.assertEqual(self.named("pack", "fleet/machines.csv", "out", status=3)[1], ["fleet/machines.csv is no folder"])
        with self.assertRaisesRegex(Problem, "there is no folder .*/no/where to write into") as raised:
            self.pack_here("no/where/out")
        self.assertEqual(raised.exception.status, 7)
        with self.assertRaisesRegex(Problem, "/machines.csv is no folder") as raised:
            self.pack_here("fleet/machines.csv/out")
        self.assertEqual(raised.exception.status, 7)
        self.assertEqual(sorted(os.listdir("fleet")), ["machines.csv", "processes.csv", "services.csv", "settings.toml"])

    def pack_here(self, out):
        pack(Fleet.read("fleet"), out)

    def test_lists(self):
        self.pack_here("packed")
        packed = Packed.read("packed")
        for text, line in (("", "list is an empty list; one of packed has a machine for each of 3 processes"),
                           ("\n", "list is an empty list; one of packed has a machine for each of 3 processes"),
                           ("0 1\n", "list has 2 machines, and packed has 3 processes: they don't belong together"),
                           ("0 1 3\n", "list puts db-0 on machine 3, and packed has 3 machines, counted from 0: they don't belong together")):
            put("list", text)
            with self.assertRaises(Problem) as raised:
                packed.placement("list")
            self.assertEqual((raised.exception.line, raised.exception.status), (line, 5))
