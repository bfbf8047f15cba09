"""What the tests of named and moves share: a small fleet whose tables can be changed."""
import os
import shutil

from common import ROOT, ToolCase, put, run, tool_path

EXAMPLE = os.path.join(ROOT, "examples", "fleet")
MACHINES = "machine,zone,rack,cpu,memory,state\na1,a,r1,16,64Gi,\na2,a,r2,16,64Gi,open\nb1,b,r3,16,64Gi,\n"
SERVICES = "service,spread,depends_on,cpu,memory\nweb,2,db,500m,1.5G\ndb,1,,2,8Gi\n"
PROCESSES = "process,service,machine,move_cost,cpu\nweb-0,web,a1,,\nweb-1,web,a2,3,\ndb-0,db,a1,,2500m\n"
SETTINGS = '[[resource]]\nname = "cpu"\nunit = "1m"\n\n[[resource]]\nname = "memory"\nunit = "1Mi"\ntransient = true\n'
FILES = {"machines.csv": MACHINES, "services.csv": SERVICES, "processes.csv": PROCESSES, "settings.toml": SETTINGS}


class FleetCase(ToolCase):
    """Tests with a fleet in the folder `fleet`."""

    def setUp(self):
        self.write_fleet("fleet")

    def tearDown(self):
        for name in os.listdir("."):
            if os.path.isdir(name) and name not in ("folder",):
                shutil.rmtree(name)

    def write_fleet(self, folder, **texts):
        """Writes a fleet; the texts of files, without their endings, go before those of the small one. None leaves one out."""
        os.makedirs(folder, exist_ok=True)
        for file, text in FILES.items():
            text = texts.get(file.split(".")[0], text)
            if isinstance(text, bytes):
                with open(os.path.join(folder, file), "wb") as out:
                    out.write(text)
            elif text is not None:
                put(os.path.join(folder, file), text)
            elif os.path.exists(os.path.join(folder, file)):
                os.unlink(os.path.join(folder, file))

    def named(self, *words, status=0):
        """Runs named: what it prints, and its lines on standard error but for the last, which is the tool's own."""
        ran = run(tool_path("named"), *words)
        told = f"named {' '.join(map(str, words))}\n{ran.stdout}{ran.stderr}"
        self.assertEqual(ran.returncode, status, told)
        self.assertNotIn("Traceback", ran.stderr, told)
        lines = ran.stderr.splitlines()
        if status:
            self.assertTrue(lines[-1].startswith("named: "), told)
            lines.pop()
        return ran.stdout, lines

    def pack(self, folder="fleet", out="packed"):
        return self.named("pack", folder, out)[0]

    def mistakes(self, status=4, **texts):
        """What is told of a fleet that isn't one. Nothing is written then."""
        self.write_fleet("wrong", **texts)
        printed, lines = self.named("pack", "wrong", "nothing", status=status)
        self.assertEqual(printed, "")
        self.assertFalse([name for name in os.listdir(".") if "nothing" in name], "a refused fleet was packed")
        return lines
