"""./reassign and dev/make_program: when the program is made anew, over small crates and a kit that proves nothing."""
import os
import re
import shutil
import sys

from common import ROOT, ToolCase, put, run, text_of

KIT = """#!/bin/sh
# Stands for the kit's `rattle build` and `rattle-link`: writes what follows -o. A linked program tells what its source is.
while [ "$1" != -o ]; do shift; done
case $0 in
    *link) printf '#!/bin/sh\\necho %s "$@"\\n' "$(cat ../below/src/lib.rt)" >"$2"; chmod 755 "$2" ;;
    *) : >"$2" ;;
esac
"""


class Repository(ToolCase):
    """A small repository, and a kit that proves nothing."""

    def setUp(self):
        self.place = os.path.abspath(f"repository {self.id().rpartition('.')[2]}")
        for name in ("dev", "tools", "examples/sample", "crates/reassign/src", "crates/below/src", "crates/below/specs",
                     "crates/below/proofs", "crates/test_other/src", "kit/bin"):
            os.makedirs(f"{self.place}/{name}")
        for name in ("reassign", "dev/make_program", "dev/unproved.py", "dev/is_untouched", "VERSION", "tools/look"):
            shutil.copy(f"{ROOT}/{name}", f"{self.place}/{name}")
        self.put("crates.txt", "below: core\nreassign: below\ntest_other: below\n")
        self.put("crates/reassign/src/main.rt", "main")
        self.put("crates/below/src/lib.rt", "one")
        self.put("crates/below/specs/Lib.antt", "definition")
        self.put("crates/below/proofs/Lib.antt", "proof")
        self.put("crates/test_other/src/lib.rt", "test")
        self.put("kit/rt", "#!/bin/sh\necho \"$(dirname \"$0\")/doc\"\n")
        for name in ("rattle", "rattle-link"):
            self.put(f"kit/bin/{name}", KIT)
            os.chmod(f"{self.place}/kit/bin/{name}", 0o755)
        os.chmod(f"{self.place}/kit/rt", 0o755)
        # Nothing but what a call needs that has nothing to make.
        os.mkdir(f"{self.place}/bin")
        for name in ("find", "readlink"):
            os.symlink(shutil.which(name), f"{self.place}/bin/{name}")

    def put(self, name, text):
        put(f"{self.place}/{name}", text)

    def call(self, *words, path=None, command=None):
        path = path or f"{self.place}/kit:{os.environ['PATH']}"
        return run(command or f"{self.place}/reassign", *words, env={**os.environ, "PATH": path})

    def expect_made(self, source):
        """A call that has to make the program, of this source."""
        ran = self.call("x")
        self.assertEqual((ran.returncode, ran.stdout), (0, f"{source} x\n"), ran.stderr)
        self.assertEqual(ran.stderr.count(" proved "), 2, ran.stderr)
        self.assertRegex(ran.stderr.splitlines()[0], "compiles reassign, 2 crates.* minutes by .*`tools/look WORD ..`")
        self.expect_there(source)

    def expect_there(self, source):
        """A call that has to make nothing. The one after it looks at nothing: there is no python3 for it."""
        ran = self.call("x")
        self.assertEqual((ran.returncode, ran.stdout, ran.stderr), (0, f"{source} x\n", ""))
        self.wait()
        self.call("x")
        ran = self.call("x", path=f"{self.place}/bin")
        self.assertEqual((ran.returncode, ran.stdout, ran.stderr), (0, f"{source} x\n", ""))

    def wait(self):
        """Waits until what was written before is older than what is written now by more than a tick of the file system."""
        run("sleep", "0.1")


class Reassign(Repository):
    def test_changed(self):
        self.expect_made("one")
        self.put("crates/below/src/lib.rt", "two")
        self.expect_made("two")
        self.put("crates/below/specs/Lib.antt", "another definition")
        self.expect_made("two")
        self.put("crates/reassign/src/main.rt", "other")
        self.expect_made("two")
        self.put("crates.txt", "below: core\nreassign: below core\ntest_other: below\n")
        self.expect_made("two")

    def test_changed_with_its_old_time(self):
        self.expect_made("one")
        name = f"{self.place}/crates/below/src/lib.rt"
        about = os.stat(name)
        put(name, "two")
        os.utime(name, ns=(about.st_atime_ns, about.st_mtime_ns))
        self.expect_made("two")
        put("older", "six")
        os.utime("older", (1e9, 1e9))
        shutil.copy2("older", name)
        self.expect_made("six")
        os.replace("older", name)
        self.expect_there("six")

    def test_new(self):
        self.expect_made("one")
        self.put("crates/below/src/more.rt", "more")
        self.expect_made("one")
        os.mkdir(f"{self.place}/crates/below/src/part")
        self.put("crates/below/src/part/more.rt", "more")
        self.expect_made("one")
        os.mkdir(f"{self.place}/crates/reassign/specs")
        self.put("crates/reassign/specs/Lib.antt", "more")
        self.expect_made("one")

    def test_removed(self):
        self.put("crates/below/src/more.rt", "more")
        self.expect_made("one")
        os.rename(f"{self.place}/crates/below/src/more.rt", f"{self.place}/crates/below/src/renamed.rt")
        self.expect_made("one")
        os.remove(f"{self.place}/crates/below/src/renamed.rt")
        self.expect_made("one")
        shutil.rmtree(f"{self.place}/crates/below/specs")
        self.expect_made("one")
        os.remove(f"{self.place}/crates/reassign/out/reassign")
        self.expect_made("one")

    def test_same_again(self):
        """What is written anew with the same text, or touched, makes nothing; nor does a test, or a proof."""
        self.expect_made("one")
        self.put("crates/below/src/lib.rt", "one")
        self.expect_there("one")
        os.utime(f"{self.place}/crates/below/specs/Lib.antt")
        self.expect_there("one")
        self.put("crates/test_other/src/lib.rt", "another test")
        self.expect_there("one")
        self.put("crates/below/proofs/Lib.antt", "another proof")
        self.expect_there("one")
        shutil.copytree(self.place, f"{self.place} copied", symlinks=True)
        self.place += " copied"
        self.expect_there("one")

    def test_made_by_ci(self):
        """A program that `rt ci` made, of which nothing is noted, is taken for that of the sources if none is newer."""
        os.makedirs(f"{self.place}/crates/reassign/out")
        program = f"{self.place}/crates/reassign/out/reassign"

        def make():
            self.wait()
            put(program, '#!/bin/sh\necho ci "$@"\n')
            os.chmod(program, 0o755)
        make()
        self.expect_there("ci")
        self.put("crates/below/proofs/Lib.antt", "another proof")
        self.expect_there("ci")
        self.put("crates/below/src/lib.rt", "two")
        self.expect_made("two")
        make()
        self.expect_there("ci")
        make()
        self.wait()
        self.put("crates/below/src/lib.rt", "three")
        self.expect_made("three")

    def test_no_kit(self):
        os.symlink(sys.executable, f"{self.place}/bin/python3")
        ran = self.call("x", path=f"{self.place}/bin")
        self.assertEqual((ran.returncode, ran.stdout), (1, ""))
        self.assertRegex(ran.stderr, "^reassign: .* kit of Rattle, whose command `rt` is not found\n$")

    def test_by_links(self):
        self.expect_made("one")
        os.symlink(f"{self.place}/reassign", f"{self.place}/link")
        os.symlink("link", f"{self.place}/another link")
        for command in (f"{self.place}/another link", os.path.relpath(f"{self.place}/reassign")):
            ran = self.call("x", "y z", command=command, path=f"{self.place}/bin")
            self.assertEqual((ran.returncode, ran.stdout, ran.stderr), (0, "one x y z\n", ""))

    def test_help(self):
        """--help and --version need no program."""
        version = text_of(f"{ROOT}/VERSION").strip()
        ran = self.call("--version")
        self.assertEqual((ran.returncode, ran.stdout, ran.stderr), (0, f"reassign {version}\n", ""))
        for word in ("--help", "-h"):
            ran = self.call(word)
            self.assertEqual((ran.returncode, ran.stderr), (0, ""))
            for command in ("check", "bound", "solve", "verify", "repair", "edit", "trial"):
                self.assertTrue(re.search(f"^  {command} [A-Z].*  [a-z].*", ran.stdout, re.M), ran.stdout)
            self.assertIn("docs/GUIDE.md", ran.stdout)
        self.assertFalse(os.path.exists(f"{self.place}/crates/reassign/out"))


# These stand for the kit's `rt try`, whose compiler gets the source of the crate below as a module, for the compiler
# itself, which copies what it gets, and for the linker.
TRY = """#!/bin/sh
cat ../below/src/lib.rt >module.bc
"${0%/*}/../toolchain/bin/clang" -fsanitize=address module.bc -o program
ended=$?
rm module.bc
exit $ended
"""
COMPILER = """#!/bin/sh
for word; do
    case $last in -o) out=$word ;; esac
    case $word in module.bc | plain.ll) from=$word ;; esac
    last=$word
done
cat "$from" >"$out"
"""
RT = """#!/bin/sh
case $1 in
    doc) echo "${0%/*}/doc" ;;
    *) echo "slow $*" ;;
esac
"""
LINKER = """#!/bin/sh
printf '#!/bin/sh\\necho %s in $PWD: "$@"\\n' "$(cat plain.o)" >program
chmod 755 program
"""


class Look(Repository):
    """tools/look: an unproved program is made once for the same sources."""

    def setUp(self):
        super().setUp()
        for name in ("kit/toolchain/bin", "kit/c"):
            os.makedirs(f"{self.place}/{name}")
        self.put("kit/bin/rtlib.py", "")
        for name, text in (("kit/bin/rt", TRY), ("kit/toolchain/bin/clang", COMPILER), ("kit/bin/rattle-link", LINKER),
                           ("kit/rt", RT)):
            self.put(name, text)
            os.chmod(f"{self.place}/{name}", 0o755)

    def look(self, *words, path=None):
        return self.call(*words, path=path, command=f"{self.place}/tools/look")

    def expect_look(self, source, lines):
        """A look that prints this source, and says so many lines."""
        ran = self.look("x")
        self.assertEqual((ran.returncode, ran.stdout), (0, f"{source} in {os.getcwd()}: x\n"), ran.stderr)
        self.assertEqual(len(ran.stderr.splitlines()), lines, ran.stderr)
        self.assertIn("look: unproved", ran.stderr.splitlines()[-1])

    def test_look(self):
        self.expect_look("one", 2)
        self.expect_look("one", 1)
        self.wait()
        self.look("x")
        self.put("crates/below/src/lib.rt", "two")
        self.expect_look("two", 2)
        self.expect_look("two", 1)
        self.assertFalse(os.path.exists(f"{self.place}/crates/reassign/out"))
        self.put("crates/below/proofs/Lib.antt", "another proof")
        self.expect_look("two", 1)

    def test_no_kit(self):
        ran = self.look("x", path="/usr/bin:/bin")
        self.assertEqual((ran.returncode, ran.stdout, len(ran.stderr.splitlines())), (1, "", 1), ran.stderr)

    def test_another_kit(self):
        """If the kit isn't as expected its `rt try` runs the program."""
        for name in ("bin/rtlib.py", "toolchain/bin/clang", "bin/rattle-link"):
            with self.subTest(name):
                os.rename(f"{self.place}/kit/{name}", f"{self.place}/kit/away")
                ran = self.look("check", "VERSION")
                self.assertEqual(ran.stdout, "slow try --seconds 3600 -- check VERSION\n", ran.stderr)
                self.assertIn("`rt try`; ./reassign runs the proved program", ran.stderr.splitlines()[-1])
                os.rename(f"{self.place}/kit/away", f"{self.place}/kit/{name}")

    def test_by_rt_try(self):
        """Files are handed to `rt try` by their absolute names."""
        os.remove(f"{self.place}/kit/bin/rtlib.py")
        put("m", "")
        ran = self.look("check", "m", "n", "--x")
        self.assertEqual(ran.stdout, f"slow try --seconds 3600 -- check {os.path.abspath('m')} n --x\n")
