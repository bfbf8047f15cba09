"""The annotations of the package."""
import inspect
import os
import shutil

import reassign_tools
from common import ROOT, ToolCase, run
from reassign_tools.fleets.fleet import Fleet


class Types(ToolCase):
    def test_strict(self):
        """mypy passes the package, if it is there; pyproject.toml says how strictly."""
        if not shutil.which("mypy"):
            self.skipTest("no mypy on this machine")
        ran = run("mypy", "--cache-dir", os.path.abspath("cache"), "--config-file", "pyproject.toml", "--package", "reassign_tools",
                  cwd=os.path.join(ROOT, "python"))
        self.assertEqual((ran.returncode, ran.stderr), (0, ""), ran.stdout[-2000:])
        self.assertTrue(os.path.exists(os.path.join(ROOT, "python", "reassign_tools", "py.typed")))

    def test_annotated(self):
        """Every public call says what it takes and gives."""
        calls = [one for one in map(reassign_tools.__dict__.get, reassign_tools.__all__) if inspect.isfunction(one)]
        self.assertGreaterEqual(len(calls), 10)
        for call in (*calls, Fleet.of, Fleet.read, Fleet.names, Fleet.model):
            signature = inspect.signature(call)
            self.assertIsNot(signature.return_annotation, inspect.Signature.empty, call)
            for name, word in signature.parameters.items():
                self.assertTrue(name == "self" or word.annotation is not inspect.Parameter.empty, f"{call.__name__} {word}")
