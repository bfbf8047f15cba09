"""What dev/package packs, and the wheel of the Python package."""
import gzip
import hashlib
import io
import os
import re
import shutil
import subprocess
import sys
import tarfile
import zipfile

from common import ANNEAL, PROGRAM, ROOT, ToolCase, run, text_of

SAMPLE = [os.path.join(ROOT, "examples", "sample", name) for name in ("model", "initial")]
PLAIN = {key: value for key, value in os.environ.items() if key != "REASSIGN"}


def bytes_of(name):
    with open(name, "rb") as file:
        return file.read()


class Packages(ToolCase):
    @classmethod
    def setUpClass(cls):
        super().setUpClass()
        words = [os.path.join(ROOT, "dev", "package"), "--program", PROGRAM, *(["--anneal", ANNEAL] if ANNEAL else [])]
        cls.ran = [run(*words, "one"), subprocess.run([*words, os.path.abspath("two")], cwd="/", umask=0o077, text=True,
                                                      stdout=subprocess.PIPE, stderr=subprocess.PIPE)]
        cls.archive, cls.package = sorted(set(os.listdir("one")) - {"SHA256SUMS"})

    def test_same_bytes(self):
        for ran in self.ran:
            self.assertEqual((ran.returncode, ran.stderr), (0, ""))
            self.assertEqual(ran.stdout, text_of("one/SHA256SUMS"))
        self.assertEqual(sorted(os.listdir("one")), sorted(os.listdir("two")))
        for name in os.listdir("one"):
            self.assertEqual(bytes_of(f"one/{name}"), bytes_of(f"two/{name}"), name)
        for name in (self.archive, self.package):
            self.assertIn(f"{hashlib.sha256(bytes_of(f'one/{name}')).hexdigest()}  {name}\n", text_of("one/SHA256SUMS"))

    def expect_works(self, place):
        """The program and each tool work from where they were unpacked."""
        def call(*words):
            ran = run(*words, env=PLAIN)
            self.assertEqual((ran.returncode, ran.stderr), (0, ""), words)
            return ran.stdout
        self.assertIn("cost 4200\n", call(f"{place}/bin/reassign", "check", *SAMPLE, SAMPLE[1]))
        if ANNEAL:
            self.assertIn("cost 2411\n", call(f"{place}/bin/reassign-anneal", *SAMPLE, "1:100"))
        raced = run(f"{place}/bin/reassign-race", "--instances", os.path.dirname(SAMPLE[0]), "--proposals", 5, env=PLAIN)
        self.assertIn("\n| sample | 5 | reassign | 1 |", raced.stdout)
        tools = [name for name in os.listdir(f"{place}/bin") if name != "reassign"]
        self.assertGreaterEqual(len(tools), 5)
        for tool in tools:
            self.assertTrue(call(f"{place}/bin/{tool}", "--version").startswith(f"{tool} "))
            self.assertTrue(any(os.path.exists(f"{place}/share/man/man1/{tool}.1{ending}") for ending in ("", ".gz")), tool)
        self.assertIn("moved 0 of 3", run(f"{place}/bin/reassign-repair_words", *SAMPLE, "--out", "repaired", env=PLAIN).stdout)

    def test_archive(self):
        with tarfile.open(f"one/{self.archive}") as archive:
            self.assertTrue(all(entry.uid == entry.gid == 0 for entry in archive))
            archive.extractall("unpacked")
        (folder,) = os.listdir("unpacked")
        self.assertEqual(f"{folder}-x86_64-linux.tar.gz", self.archive)
        self.expect_works(os.path.abspath(f"unpacked/{folder}"))

    def members(self):
        """The members of the Debian package, by name."""
        text, at, found = bytes_of(f"one/{self.package}"), 8, {}
        self.assertEqual(text[:8], b"!<arch>\n")
        while at < len(text):
            name, size = text[at:at + 16].decode().strip(), int(text[at + 48:at + 58])
            self.assertEqual(text[at + 58:at + 60], b"`\n")
            found[name] = text[at + 60:at + 60 + size]
            at += 60 + size + size % 2
        return found

    def test_package(self):
        """It is unpacked into an empty root, by dpkg-deb too if that is there."""
        members = self.members()
        self.assertEqual(list(members), ["debian-binary", "control.tar.gz", "data.tar.gz"])
        with tarfile.open(fileobj=io.BytesIO(gzip.decompress(members["control.tar.gz"]))) as control:
            about = control.extractfile("./control").read().decode()
            sums = control.extractfile("./md5sums").read().decode()
        self.assertRegex(about, r"(?m)^Package: reassign\nVersion: \d")
        self.assertRegex(about, r"(?m)^Maintainer: [^<]+ <\S+@\S+>$")
        with tarfile.open(fileobj=io.BytesIO(gzip.decompress(members["data.tar.gz"]))) as data:
            self.assertTrue(all(entry.uid == entry.gid == 0 and entry.mode & 0o022 == 0 for entry in data if not entry.issym()))
            data.extractall("root")
        for line in sums.splitlines():
            digest, name = line.split("  ")
            self.assertEqual(hashlib.md5(bytes_of(f"root/{name}")).hexdigest(), digest, name)
        self.expect_works(os.path.abspath("root/usr"))
        self.assertLess(os.path.getsize("root/usr/lib/reassign/reassign"), os.path.getsize(PROGRAM))
        changes = gzip.decompress(bytes_of("root/usr/share/doc/reassign/changelog.Debian.gz")).decode()
        self.assertIn(f"reassign ({re.search(r'Version: (.*)', about)[1]}) ", changes)
        if shutil.which("dpkg-deb"):
            ran = run("dpkg-deb", "-x", f"one/{self.package}", "by_dpkg")
            self.assertEqual((ran.returncode, ran.stderr), (0, ""))
            self.expect_works(os.path.abspath("by_dpkg/usr"))

    def test_lintian(self):
        """Debian's own judge of packages, if it is there, finds no error."""
        if not shutil.which("lintian"):
            self.skipTest("no lintian on this machine")
        ran = run("lintian", "--fail-on", "error", f"one/{self.package}")
        self.assertEqual(ran.returncode, 0, ran.stdout + ran.stderr)

    def test_refusals(self):
        words = [os.path.join(ROOT, "dev", "package")]
        self.assertEqual(run(*words).returncode, 2)
        self.assertEqual(run(*words, "--program", "nowhere", "three").returncode, 1)
        self.assertEqual(run(*words, "--program", words[0], "three").returncode, 1)
        self.assertFalse(os.path.exists("three"))


class Wheel(ToolCase):
    def make(self, folder):
        """The wheel, as pip asks the folder for it."""
        os.makedirs(folder)
        script = "import sys, wheel_of_this; print(wheel_of_this.build_wheel(sys.argv[1]))"
        ran = run(sys.executable, "-c", script, os.path.abspath(folder), cwd=os.path.join(ROOT, "python"))
        self.assertEqual((ran.returncode, ran.stderr), (0, ""))
        return os.path.join(folder, ran.stdout.strip())

    def test_wheel(self):
        wheel = self.make("wheel")
        self.assertEqual(bytes_of(wheel), bytes_of(self.make("again")))
        with zipfile.ZipFile(wheel) as archive:
            self.assertIsNone(archive.testzip())
            (scripts,) = [name for name in archive.namelist() if name.endswith("entry_points.txt")]
            commands = re.findall(r"^(reassign-(\w+)) = reassign_tools\.(\w+):main$", archive.read(scripts).decode(), re.M)
        self.assertEqual(sorted(tool for _, tool, _ in commands), sorted(tools_here()))
        self.assertTrue(all(tool == module for _, tool, module in commands))

    def test_pip(self):
        """`pip install` without a network, if there is a pip."""
        if run(sys.executable, "-m", "pip", "--version").returncode:
            self.skipTest("no pip on this machine")
        ran = run(sys.executable, "-m", "pip", "install", "--quiet", "--no-compile", "--no-index", "--target", "site", os.path.join(ROOT, "python"),
                  env={**os.environ, "PIP_NO_INDEX": "1", "PIP_FIND_LINKS": "", "PIP_ROOT_USER_ACTION": "ignore"})
        self.assertEqual(ran.returncode, 0, ran.stderr)
        for tool in tools_here():
            ran = run(sys.executable, f"site/bin/reassign-{tool}", "--version", env={**os.environ, "PYTHONPATH": "site"})
            self.assertEqual((ran.returncode, ran.stdout), (0, f"reassign-{tool} {text_of(f'{ROOT}/VERSION')}"), ran.stderr)


def tools_here():
    """The tools of the folder tools/ that are of the package."""
    folder = os.path.join(ROOT, "tools")
    return [name for name in os.listdir(folder) if os.path.isfile(os.path.join(folder, name))
            and "reassign_tools" in text_of(os.path.join(folder, name)).split("\n")[1]]
