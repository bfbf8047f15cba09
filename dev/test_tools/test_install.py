"""What tools/install installs: it works, it can be moved, and it goes again without a trace."""
import importlib
import os
import re
import shutil
import signal
import subprocess
import sys
import time

from common import ANNEAL, PROGRAM, ROOT, ToolCase, run, text_of
from reassign_tools.__main__ import TOOLS

SAMPLE = [os.path.join(ROOT, "examples", "sample", name) for name in ("model", "initial")]
INSTALL, UNINSTALL = (os.path.join(ROOT, "tools", name) for name in ("install", "uninstall"))


def text_in(name):
    return text_of(os.path.join(ROOT, name))


class Install(ToolCase):
    def expect_run(self, *words, **how):
        """A command that has to end with status 0 and no word on standard error."""
        how = {"env": {key: value for key, value in os.environ.items() if key != "REASSIGN"}, **how}
        ran = run(*words, **how)
        self.assertEqual((ran.returncode, ran.stderr), (0, ""), f"{words}\n{ran.stdout}")
        return ran.stdout

    def test_versions(self):
        version = text_in("VERSION").strip()
        self.assertRegex(version, r"^\d+\.\d+\.\d+$")
        self.assertIn(f"version {version}", text_in("README.md"))
        self.assertIn(f".Os reassign {version}\n", text_in("docs/reassign.1"))
        self.assertIn(f".Os reassign {version}\n", text_in("docs/anneal.1"))
        told = run(sys.executable, "-c", "import reassign_tools; print(reassign_tools.__version__)", cwd=f"{ROOT}/python")
        self.assertEqual(told.stdout, f"{version}\n")
        self.assertIn(f'const VERSION: &str = "anneal {version}\\n";\n', text_in("crates/ra_anneal/src/telling.rt"))
        versions = re.findall(r"^## \[(\d.*?)\]", text_in("CHANGELOG.md"), re.M)
        self.assertEqual(versions[0], version)

    def test_install(self):
        place, moved = os.path.abspath("a place"), os.path.abspath("moved")
        self.expect_run(INSTALL, "--program", PROGRAM, *(["--anneal", ANNEAL] if ANNEAL else []), place)
        listed = {line[2:] for line in text_of(f"{place}/share/reassign/files").splitlines() if line.startswith("f ")}
        found = {os.path.relpath(os.path.join(at, name), place) for at, folders, files in os.walk(place)
                 for name in files + [one for one in folders if os.path.islink(os.path.join(at, one))]}
        self.assertEqual(found, listed)
        self.expect_run(f"{place}/bin/reassign", "check", *SAMPLE, SAMPLE[1])
        tools = sorted(name for name in os.listdir(f"{place}/bin") if name != "reassign")
        self.assertIn("reassign-improve", tools)
        for name in tools:
            self.assertIn("usage: ", self.expect_run(f"{place}/bin/{name}", "--help"))
        self.look_at_readers(place)
        self.look_at_answers(place)
        self.expect_run(INSTALL, "--program", PROGRAM, place)
        self.assertFalse(os.path.exists(f"{place}/bin/reassign-anneal"))
        self.expect_run("tar", "-C", place, "-czf", "packed.tar.gz", ".")
        os.mkdir(moved)
        self.expect_run("tar", "-C", moved, "-xzf", "packed.tar.gz")
        with open("solved", "w", encoding="utf-8") as out:
            run(f"{moved}/bin/reassign", "solve", *SAMPLE, "4:5", stdout=out)
        self.expect_run(f"{moved}/bin/reassign-plot", "--run", "solved", *SAMPLE)
        self.expect_run(f"{moved}/bin/reassign-summary", "solved", *SAMPLE)
        self.expect_run(UNINSTALL, place)
        self.assertFalse(os.path.exists(place))
        self.expect_line(1, f"uninstall: nothing of reassign is installed in {place}", UNINSTALL, place)

    def test_destdir(self):
        """Everything stands below DESTDIR, and nothing at the prefix."""
        root, prefix = os.path.abspath("root"), os.path.abspath("prefix")
        for destdir in (root, f"{root}/", "root"):
            told = self.expect_run(INSTALL, "--program", PROGRAM, prefix, env={**os.environ, "DESTDIR": destdir})
            self.assertIn(f"in {root}{prefix}\n", told)
            self.assertFalse(os.path.exists(prefix))
            self.expect_run(f"{root}{prefix}/bin/reassign", "check", *SAMPLE, SAMPLE[1])
            self.expect_run(f"{root}{prefix}/bin/reassign-improve", "--version")
            self.expect_run(UNINSTALL, prefix, env={**os.environ, "DESTDIR": destdir})
            self.assertFalse(os.path.exists(f"{root}{prefix}"))

    def look_at_answers(self, place):
        """The installed programs tell how to call them, and their versions, as those of the repository do. Each file that they
        name is there. All other words are the program's."""
        version = text_in("VERSION").strip()
        os.symlink(f"{place}/bin/reassign", "by_link")
        for name in (f"{place}/bin/reassign", "./by_link"):
            self.assertEqual(self.expect_run(name, "--version"), f"reassign {version}\n")
            told, here = self.expect_run(name, "--help"), self.expect_run(os.path.join(ROOT, "reassign"), "--help")
            commands = told.partition("\n\nFor the best")[0]
            self.assertEqual(commands, here.partition("\n\nFor the best")[0])
            self.assertIn("usage: reassign COMMAND", commands)
            files = re.findall(rf"{re.escape(place)}[\w/]*(?:\.md)?", told)
            self.assertGreaterEqual(len(files), 4, told)
            self.assertEqual([file for file in files if not os.path.exists(file)], [])
            self.expect_line(2, self.usage_of(PROGRAM), name, "check", "--help")
        if not ANNEAL:
            return
        self.assertEqual(self.expect_run(f"{place}/bin/reassign-anneal", "--version"), f"reassign-anneal {version}\n")
        told = self.expect_run(f"{place}/bin/reassign-anneal", "--help")
        self.assertEqual(told, self.expect_run(ANNEAL, "--help").replace("usage: anneal", "usage: reassign-anneal"))
        self.expect_line(2, self.usage_of(ANNEAL), f"{place}/bin/reassign-anneal", "--nonsense")

    def usage_of(self, program):
        return run(program, "--nonsense").stderr.strip()

    def look_at_readers(self, place):
        """The man page and the completions, by the programs that read them, as far as they are on the machine."""
        readers = (("share/man/man1", ["mandoc", "-T", "lint", "-W", "warning"]), ("share/man/man1", ["man", "--warnings", "-l"]),
                   ("share/bash-completion/completions", ["bash", "-n"]), ("share/zsh/site-functions", ["zsh", "-n"]),
                   ("share/fish/vendor_completions.d", ["fish", "-n"]))
        for folder, reader in readers:
            names = sorted(os.listdir(f"{place}/{folder}"))
            self.assertTrue(any("improve" in name or "tools" in name for name in names), names)
            for name in names:
                if shutil.which(reader[0]) and not os.path.islink(f"{place}/{folder}/{name}"):
                    self.expect_run(*reader, f"{place}/{folder}/{name}", env={**os.environ, "LC_ALL": "C.UTF-8"})

    def commands_of(self, tool):
        """The commands of a tool, and the tool itself, as words behind its name."""
        parser = importlib.import_module(f"reassign_tools.{tool}").parser()
        commands = [action.choices for action in parser._actions if isinstance(action.choices, dict)]
        return [[], *([name] for names in commands for name in names)]

    def test_completions(self):
        """What bash offers."""
        room = os.path.abspath("described")
        self.expect_run(os.path.join(ROOT, "dev", "describe_tools"), room)

        def offered(file, function, *words):
            script = f'. "{file}"; COMP_WORDS=({" ".join(words)}); COMP_CWORD={len(words) - 1}; compopt() {{ :; }}; {function}; ' \
                     'printf "%s\\n" "${COMPREPLY[@]}"'
            return run("bash", "-c", script).stdout.split()
        file = os.path.join(ROOT, "tools", "completions", "reassign.bash")
        self.assertEqual(offered(file, "_reassign", "reassign", "s"), ["solve"])
        self.assertEqual(offered(file, "_reassign", "reassign", "t"), ["trial"])
        self.assertEqual(offered(file, "_reassign", "reassign", "trial", "''"), [])
        self.assertEqual(offered(file, "_reassign", "reassign", "check", "mod"), ["model"])
        page, zsh = text_of(f"{room}/reassign-tools.1"), text_of(f"{room}/zsh/_reassign-tools")
        for tool in TOOLS:
            fish = text_of(f"{room}/fish/reassign-{tool}.fish")
            for command in self.commands_of(tool):
                # The words of the usage, and no others.
                usage = run(os.path.join(ROOT, "tools", tool), *command, "--help").stdout.partition("\n\n")[0]
                expected = {"--help"} | set(re.findall(r"--[a-z][a-z-]*", usage))
                words = offered(f"{room}/bash/reassign-{tool}", f"_reassign_{tool}", f"reassign-{tool}", *command, "--")
                self.assertEqual(set(words), expected, usage)
                for word in words:
                    self.assertIn(f" -l {word[2:]} ", fish)
                    self.assertIn(f".It Fl {word[1:]}", page)
                    self.assertIn(f"{word}[", zsh)
                if command:
                    told = offered(f"{room}/bash/reassign-{tool}", f"_reassign_{tool}", f"reassign-{tool}", *command)
                    self.assertEqual(told, [name for name in told if name.startswith(command[0])])
                    self.assertIn(f".Ss reassign-{tool} {command[0]}\n", page)
                    self.assertIn(f" -a {command[0]} ", fish)
        self.assertEqual(offered(f"{room}/bash/reassign-improve", "_reassign_improve", "reassign-improve", "--out", "mod"), ["model"])
        self.assertEqual(offered(f"{room}/bash/reassign-improve", "_reassign_improve", "reassign-improve", "--seed", "''"), [])

    def test_refusals(self):
        for words in (["a", "b"], ["--x"], [""], ["--program"]):
            self.expect_line(2, None, INSTALL, *words)
        self.expect_line(1, None, INSTALL, "--program", "/none", "none")
        self.expect_line(7, None, INSTALL, "--program", sys.executable, "report")
        self.expect_line(2, None, UNINSTALL, "a", "b")
        self.expect_line(1, None, UNINSTALL, "/none")

    def test_interrupted(self):
        place = os.path.abspath("interrupted")
        for seconds in (0.1, 0.2):
            install = subprocess.Popen([INSTALL, "--program", PROGRAM, place], stdin=subprocess.DEVNULL, stdout=subprocess.DEVNULL,
                                       stderr=subprocess.PIPE, text=True, start_new_session=True,
                                       preexec_fn=lambda: signal.signal(signal.SIGINT, signal.default_int_handler))
            time.sleep(seconds)
            os.killpg(install.pid, signal.SIGINT)
            _, error = install.communicate()
            half = [name for _, _, files in os.walk(place) for name in files if ".part" in name]
            self.assertIn((install.returncode, len(error.splitlines())), ((0, 0), (130, 1)), error)
            self.assertEqual(half, [])
            shutil.rmtree(place, ignore_errors=True)


class Others(ToolCase):
    """Wrong calls of what stands beside."""

    def test_help(self):
        """Each file of tools/ tells how to call it, and its version."""
        version = text_in("VERSION").strip()
        for name in sorted(os.listdir(os.path.join(ROOT, "tools"))):
            path = os.path.join(ROOT, "tools", name)
            if os.path.isfile(path):
                told = run(path, "--help")
                self.assertEqual((told.returncode, told.stderr), (0, ""), name)
                self.assertIn("usage: ", told.stdout)
                told = run(path, "--version")
                self.assertEqual((told.returncode, told.stderr), (0, ""), name)
                self.assertIn(told.stdout, (f"{name} {version}\n", f"reassign-{name} {version}\n"))

    def test_look(self):
        self.expect_line(2, None, os.path.join(ROOT, "tools", "look"))
        self.expect_line(2, None, os.path.join(ROOT, "tools", "look"), "anneal")

    def test_bench(self):
        maker = os.path.join(ROOT, "bench", "make_instance.py")
        for words in ([], ["x"], ["y", "10", "10", "1", "1", "skew"], ["y", "0", "10", "1", "1"]):
            self.expect_line(2, None, maker, *words)
        self.expect_line(1, None, maker, "/dev/null/x", "10", "10", "1", "1")
        shapes = os.path.join(ROOT, "bench", "make_shapes.py")
        for words in ([], ["x"], ["x", "60x60x60", "1"], ["x", "50x1000x3", "y"], ["-x", "50x1000x3", "1"]):
            self.expect_line(2, None, shapes, *words)
        self.expect_line(1, None, shapes, "/dev/null/x", "50x1000x3", "1")
        for script in ("judge_report", "compare", "compare_anneal", "judge_list", "make_pinned", "make_busy"):
            self.expect_line(2, None, sys.executable, os.path.join(ROOT, "bench", f"{script}.py"))
        for words in (["--x"], ["a", "b"], ["--rounds", "x"]):
            self.expect_line(2, None, os.path.join(ROOT, "bench", "run"), *words)
        for name, usage in (("run", "[--write] [--rounds N]"), ("search", "[NAME ..]")):
            for word in ("--help", "-h"):
                ran = run(os.path.join(ROOT, "bench", name), word)
                self.assertEqual((ran.returncode, ran.stderr), (0, ""))
                self.assertIn(f"\nusage: bench/{name} {usage}", ran.stdout)
