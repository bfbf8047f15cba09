"""What dev/check_texts finds in a small repository."""
import os
import shutil

from common import ROOT, ToolCase, run

FILES = {
    "README.md": "`tools/look`, [more](docs/GUIDE.md), [0.5 s](docs/PERFORMANCE.md)\n\n    it took 3 s\n",
    "docs/GUIDE.md": "It takes long; `2 s` is a word.\n\n```console\n$ x\n7 s\n```\n",
    "docs/PERFORMANCE.md": "It takes 0.5 s. [Back](../README.md)\n",
    "crates.txt": "# lowest first\nra_one:\n",
    "crates/ra_one/src/lib.rt": "",
    "dev/README.md": "| `dev/check_texts` | this |\n| `bench/one.py` | one |\n",
    "bench/one.py": "x = 1\n",
    "tools/look": "#!/bin/sh\n",
}


class Texts(ToolCase):
    def setUp(self):
        super().setUp()
        for name, text in FILES.items():
            self.put(name, text)
        shutil.copy(os.path.join(ROOT, "dev", "check_texts"), "dev/check_texts")

    def put(self, name, text):
        os.makedirs(os.path.dirname(name) or ".", exist_ok=True)
        with open(name, "w", encoding="utf-8") as file:
            file.write(text)

    def faults(self, *words):
        ran = run("dev/check_texts", *words)
        self.assertEqual((ran.returncode, ran.stderr), (1 if ran.stdout else 0, ""))
        return ran.stdout.splitlines()

    def test_fine(self):
        self.assertEqual(self.faults(), [])
        self.assertEqual(run("dev/check_texts", "x").returncode, 2)

    def test_columns(self):
        """No file may have more long lines than it had."""
        long = f"x = {'1' * 117}\n"
        self.put("bench/one.py", long)
        self.assertEqual(self.faults(), ["bench/one.py: 1 lines have more than 120 columns; 0 had before"])
        self.assertEqual(self.faults("--write"), [])
        self.put("bench/one.py", long + long)
        self.assertEqual(self.faults("--write"), ["bench/one.py: 2 lines have more than 120 columns; 1 had before"])
        self.put("bench/one.py", f"x = {'1' * 116}\n")
        self.assertEqual(self.faults("--write"), [])

    def test_figures(self):
        for text in ("It takes 12 s.", "It takes 1,000 ms here.", "3.5 % are done", "20 minutes"):
            self.put("docs/GUIDE.md", f"First.\n{text}\n")
            self.assertIn("docs/GUIDE.md:2: ", "".join(self.faults()))
        self.put("docs/GUIDE.md", "1,000 machines, 80 words, 12 such.\n")
        self.assertEqual(self.faults(), [])

    def test_words(self):
        self.put("docs/GUIDE.md", "word " * 22_000)
        self.assertEqual([fault.partition(" words")[0] for fault in self.faults()], ["all documents have 22,013"])

    def test_lists(self):
        for name, fault in (("crates/ra_two/src/lib.rt", "crates/ra_two isn't in crates.txt"),
                            ("bench/two", "bench/two isn't in dev/README.md"),
                            ("tools/two", "tools/two isn't in README.md or docs/GUIDE.md"),
                            ("docs/TWO.md", "no document links docs/TWO.md")):
            with self.subTest(name):
                self.put(name, "")
                self.assertEqual(self.faults(), [fault])
                os.remove(name)
                shutil.rmtree("crates/ra_two", ignore_errors=True)
        os.remove("bench/one.py")
        self.assertEqual(self.faults(), ["dev/README.md names bench/one.py, which isn't there"])
