"""The example, how the library is found, and what the package says of itself."""

import inspect
import os
import pathlib
import re
import subprocess
import sys
import tempfile
import typing
import unittest
import zipfile

import yam

from .cases import ROOT, SIX_FILE

HERE = ROOT / "bindings" / "python"
LIBRARY = ROOT / "target" / "python" / "libyam.so"
EXAMPLE = HERE / "example.py"
LAST_LINES = """11 22 000004 c1000002 JMP 000002,NZ ;
PC 000005, RX 05, depth 0
%00 00000000 00000000 00000000 00000000 00000000 00000000 00000013 00000000
%08 00000000 00000000 00000000 00000000 00000000 00000000 00000000 00000000
"""


def ran(*command, **environment):
    """Status, standard output and standard error of a command from the tree's root."""
    told = {**os.environ, "PYTHONDONTWRITEBYTECODE": "1", **environment}
    done = subprocess.run(command, cwd=ROOT, env=told, capture_output=True, text=True)
    return done.returncode, done.stdout, done.stderr


class Example(unittest.TestCase):
    def ran(self, *arguments):
        return ran(sys.executable, str(EXAMPLE), *arguments)

    def test_as_typed(self):
        self.assertTrue(os.access(EXAMPLE, os.X_OK))
        status, output, errors = ran("bindings/python/example.py", "examples/six_words.img")
        self.assertEqual((status, output[-len(LAST_LINES) :], errors), (0, LAST_LINES, ""))

    def test_statuses(self):
        with tempfile.TemporaryDirectory() as directory:
            bad = pathlib.Path(directory) / "bad.img"
            bad.write_bytes(SIX_FILE[:-1])
            for status, said, *arguments in (
                (0, "", "examples/six_words.img", "3"),
                (1, "refused 19: The image file", str(bad)),
                (1, "refused 16 ", "examples/six_words.img", "1000001"),
                (2, "usage: ", "examples/six_words.img", "-1"),
                (2, "usage: ", "examples/six_words.img", "1", "2"),
                (2, "usage: "),
                (3, "nothing.img", "nothing.img"),
                (3, directory, directory),
            ):
                answer, _, errors = self.ran(*arguments)
                self.assertEqual(answer, status, arguments)
                self.assertIn(said, errors)


class Loading(unittest.TestCase):
    def test_no_library(self):
        code = "import yam"
        for place, said in (
            ("nowhere/libyam.so", "run bindings/python/build"),
            (str(EXAMPLE), "is not the library"),
        ):
            told = {"YAM_LIBRARY": place, "PYTHONPATH": str(HERE)}
            status, _, errors = ran(sys.executable, "-c", code, **told)
            last = errors.splitlines()[-1]
            self.assertEqual((status, last[:17]), (1, "ImportError: yam: "[:17]))
            self.assertIn(place, last)
            self.assertIn(said, last)
        status, _, errors = ran(sys.executable, str(EXAMPLE), "x", YAM_LIBRARY="nowhere")
        self.assertEqual((status, errors[:5]), (3, "yam: "))

    def test_named_library(self):
        code = "import yam; print(yam.Config().lawful)"
        told = {"YAM_LIBRARY": str(LIBRARY), "PYTHONPATH": str(HERE)}
        self.assertEqual(ran(sys.executable, "-c", code, **told), (0, "True\n", ""))


class Package(unittest.TestCase):
    def test_version(self):
        project = (HERE / "pyproject.toml").read_text(encoding="utf-8")
        self.assertEqual(re.search(r'^version = "(.*)"$', project, re.M).group(1), yam.__version__)
        self.assertTrue((HERE / "yam" / "py.typed").exists())

    def test_typed_and_described(self):
        for name in yam.__all__:
            part = getattr(yam, name)
            self.assertTrue(inspect.getdoc(part), name)
            if inspect.isfunction(part):
                self.typed(name, part)
            elif inspect.isclass(part) and part.__module__.startswith("yam."):
                for label, method in inspect.getmembers(part, inspect.isfunction):
                    if method.__module__.startswith("yam.") and not label.startswith("_"):
                        self.typed(f"{name}.{label}", method)
                        self.assertTrue(inspect.getdoc(method), f"{name}.{label}")

    def typed(self, name, function):
        hints = typing.get_type_hints(function)
        for parameter in inspect.signature(function).parameters:
            self.assertTrue(parameter == "self" or parameter in hints, f"{name}: {parameter}")
        self.assertIn("return", hints, name)

    def test_wheel(self):
        with tempfile.TemporaryDirectory() as directory:
            code = f"import backend; print(backend.build_wheel({directory!r}))"
            status, name, _ = ran(sys.executable, "-c", code, PYTHONPATH=str(HERE))
            self.assertEqual((status, name), (0, "yam-1.0.0-py3-none-any.whl\n"))
            with zipfile.ZipFile(pathlib.Path(directory) / name.strip()) as wheel:
                held = {file for file in wheel.namelist() if file.startswith("yam/")}
            written = {f"yam/{file.name}" for file in (HERE / "yam").iterdir() if file.is_file()}
            self.assertEqual(held, written)
