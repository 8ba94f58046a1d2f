"""The examples, the README, the docstrings, the type hints, and how the shared object is found."""

import doctest
import inspect
import os
import re
import shutil
import subprocess
import sys
import tempfile
import typing
import unittest
from pathlib import Path

import support
from support import softdemap

EXAMPLES = support.BINDING / "examples"
CAPTURE = support.REPOSITORY / "examples" / "c" / "capture.f32"
LIBRARY = support.REPOSITORY / "target" / "host" / "libsoftdemap.so"


def run(*words, **variables):
    """A Python program with these variables, and without the one that names the library where it is not among them."""
    kept = {name: value for name, value in os.environ.items() if name != "SOFTDEMAP_LIBRARY"}
    return subprocess.run([sys.executable, "-B", *map(str, words)], env={**kept, **variables}, capture_output=True, text=True)


class Examples(unittest.TestCase):
    maxDiff = None

    def try_example(self, wanted, *words):
        path = os.pathsep.join(filter(None, (str(support.BINDING), os.environ.get("PYTHONPATH"))))
        for blocked in ("", "1") if support.numpy else ("1",):
            done = run(*words, WITHOUT_NUMPY=blocked, PYTHONPATH=path)
            self.assertEqual((done.stdout, done.stderr, done.returncode), (wanted.read_text(encoding="utf-8"), "", 0))

    def test_one_symbol(self):
        self.try_example(EXAMPLES / "one_symbol.out", EXAMPLES / "one_symbol.py")

    def test_capture(self):
        """Its output is that of the program in C."""
        self.try_example(support.REPOSITORY / "examples" / "c" / "capture.out", EXAMPLES / "capture.py", CAPTURE)

    def test_readme(self):
        """The program and the output that the README shows are those of the example."""
        text = (support.BINDING / "README.md").read_text(encoding="utf-8")
        indented = re.findall(r"(?:^(?:    .*)?\n)+", text, re.MULTILINE)
        blocks = [re.sub("^    ", "", block, flags=re.MULTILINE).strip() for block in indented if block.strip()]
        program = (EXAMPLES / "one_symbol.py").read_text(encoding="utf-8")
        body = program[program.index("from softdemap") :].strip()
        self.assertIn(body, blocks)
        self.assertEqual(blocks[blocks.index(body) + 1], (EXAMPLES / "one_symbol.out").read_text(encoding="utf-8").strip())

    def test_docstrings(self):
        found = doctest.testmod(softdemap)
        self.assertEqual((found.failed, found.attempted), (0, 12))


class Hints(unittest.TestCase):
    def test_every_function_has_them(self):
        functions = [function for function in (getattr(softdemap, name) for name in softdemap.__all__) if inspect.isfunction(function)]
        self.assertEqual(len(functions), 10)
        for function in functions:
            self.assertEqual(set(typing.get_type_hints(function)), {*inspect.signature(function).parameters, "return"}, function.__name__)

    def test_records(self):
        for record in (softdemap.Modulation, softdemap.Point, softdemap.Reading, softdemap.Sizes):
            self.assertTrue(typing.get_type_hints(record), record.__name__)

    def test_they_are_for_users(self):
        self.assertTrue((support.BINDING / "softdemap" / "py.typed").is_file())


class Finding(unittest.TestCase):
    """The package is copied to a folder of its own, and looks for the library from there."""

    def setUp(self):
        self.folder = Path(tempfile.mkdtemp())
        self.addCleanup(shutil.rmtree, self.folder)
        self.package = self.folder / "bindings" / "python" / "softdemap"
        self.package.mkdir(parents=True)
        shutil.copy(support.BINDING / "softdemap" / "__init__.py", self.package)

    def found(self, by_loader=None, **variables):
        """The path that is loaded, or the last line of the error; `by_loader` stands for what the loader finds."""
        code = f"import ctypes.util, sys; ctypes.util.find_library = lambda name: {by_loader!r}"
        code += f"; sys.path.insert(0, {str(self.package.parent)!r}); import softdemap; print(softdemap._library._name)"
        done = run("-c", code, **variables)
        return (done.stdout or done.stderr).strip().splitlines()[-1]

    def test_in_the_repository_and_in_the_package(self):
        for place in (self.folder / "target" / "host" / LIBRARY.name, self.package / LIBRARY.name):
            place.parent.mkdir(parents=True, exist_ok=True)
            shutil.copy(LIBRARY, place)
            self.assertEqual(self.found(), str(place))

    def test_by_the_variable(self):
        shutil.copy(LIBRARY, self.package)
        other = self.folder / "other.so"
        shutil.copy(LIBRARY, other)
        self.assertEqual(self.found(SOFTDEMAP_LIBRARY=str(other)), str(other))

    def test_by_the_loader(self):
        self.assertEqual(self.found(by_loader=str(LIBRARY)), str(LIBRARY))

    def test_nowhere(self):
        """The error says what to run."""
        wanted = "ImportError: there is no libsoftdemap.so: run scripts/shared in the repository, or set SOFTDEMAP_LIBRARY to the file"
        self.assertEqual(self.found(), wanted)

    def test_another_file(self):
        shutil.copy(LIBRARY, self.package)
        for path in (str(self.folder / "none.so"), str(self.package / "__init__.py"), "libc.so.6"):
            error = self.found(SOFTDEMAP_LIBRARY=path)
            self.assertRegex(error, f"^ImportError: {re.escape(path)} is not the softdemap library .*: run scripts/shared")
