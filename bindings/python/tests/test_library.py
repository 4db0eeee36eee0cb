"""Where the module looks for its library, and what it tells where it finds none."""

import doctest
import os
import shutil
import subprocess
import sys
import tempfile
import unittest
from pathlib import Path
from typing import Optional

import nm_set
from nm_set import _library

NAMED = os.environ.get("NM_SET_LIBRARY", "")
SHOWN = "import nm_set; from nm_set import _library as c; print(c.exports._name)"


# Imports the module in a second interpreter, as mod_wsgi makes one, and uses it in the first.
SECOND = '''
import gc
import nm_set

try:
    import _interpreters as interpreters
    kind = "legacy"
except ImportError:
    try:
        import _xxsubinterpreters as interpreters
        kind = None
    except ImportError:
        print("no subinterpreters")
        raise SystemExit
other = interpreters.create(kind) if kind else interpreters.create(isolated=False)
numbers = nm_set.Set(1_000, workers=1)
for name in ("nm_set", *(("nm_set._native",) if nm_set.is_native else ())):
    interpreters.run_string(other, f"""
import importlib, sys
if "{name}" != "nm_set":
    import types
    package = types.ModuleType("nm_set")
    package.__path__ = {nm_set.__path__!r}
    sys.modules["nm_set"] = package
try:
    importlib.import_module("{name}")
    print("imported")
except ImportError as error:
    print(error)
""")
try:
    numbers.add(-1)
except nm_set.OutOfRange:
    numbers.attach().add(5)
gc.collect()
assert numbers.attach(blocking=False).add(6) and len(numbers.close()) == 2
print("the first goes on")
'''


def imported(library: Optional[str], **more: str) -> subprocess.CompletedProcess:
    """Imports the module in a program of its own, where NM_SET_LIBRARY names a library."""
    words = {key: value for key, value in os.environ.items() if key != "NM_SET_LIBRARY"}
    words.update(more)
    words["PYTHONPATH"] = str(Path(nm_set.__file__).parents[1])
    if library is not None:
        words["NM_SET_LIBRARY"] = library
    command = [sys.executable, "-c", SHOWN]
    return subprocess.run(
        command, env=words, capture_output=True, text=True, check=False, cwd=tempfile.gettempdir()
    )


class Library(unittest.TestCase):
    def fails(self, told: subprocess.CompletedProcess, *texts: str) -> None:
        last = told.stderr.strip().splitlines()[-1]
        self.assertEqual((told.returncode, last.split(":")[0]), (1, "ImportError"), told.stderr)
        for text in texts:
            self.assertIn(text, last)

    def test_a_file_that_is_named_is_the_one(self) -> None:
        self.fails(imported("/no/such/libnm_set.so.0"), "/no/such/libnm_set.so.0", "NM_SET_LIBRARY")

    def test_a_library_without_a_function_is_told(self) -> None:
        wanted = f"has no nm_set_version, which nm_set {nm_set.__version__} for Python calls"
        self.fails(imported("libm.so.6"), "libm.so.6 (of an unknown version)", wanted)

    @unittest.skipUnless(os.path.sep in NAMED, "NM_SET_LIBRARY names no file")
    def test_the_library_beside_the_module_comes_first(self) -> None:
        with tempfile.TemporaryDirectory() as folder:
            package = Path(folder) / "nm_set"
            ignored = shutil.ignore_patterns("_native.*so")
            shutil.copytree(Path(nm_set.__file__).parent, package, ignore=ignored)
            shutil.copy(NAMED, package / "libnm_set.so.0.1")
            command = [sys.executable, "-c", SHOWN]
            words = {**os.environ, "PYTHONPATH": folder, "NM_SET_LIBRARY": ""}
            told = subprocess.run(
                command, env=words, capture_output=True, text=True, check=True, cwd=folder
            )
            self.assertEqual(told.stdout.strip(), str(package / "libnm_set.so.0.1"))

    @unittest.skipUnless(shutil.which("pkg-config"), "there is no pkg-config")
    def test_pkg_config_is_asked(self) -> None:
        folder = Path(NAMED).resolve().parent
        if not (folder / "pkgconfig" / "nm_set.pc").is_file():
            self.skipTest("the library that NM_SET_LIBRARY names was not put there by c/install")
        if _library.own_file() is not None:
            self.skipTest("the library is in the extension, or beside the module")
        told = imported(None, PKG_CONFIG_PATH=str(folder / "pkgconfig"))
        found = Path(told.stdout.strip())
        self.assertEqual((found.name, found.resolve().parent), ("libnm_set.so.0.1", folder))

    def test_a_second_interpreter_is_refused_and_leaves_the_first_as_it_was(self) -> None:
        told = subprocess.run(
            [sys.executable, "-c", SECOND],
            env={**os.environ, "PYTHONPATH": str(Path(nm_set.__file__).parents[1])},
            capture_output=True,
            text=True,
            check=False,
            cwd=tempfile.gettempdir(),
        )
        if told.stdout.strip() == "no subinterpreters":
            self.skipTest("this Python has no subinterpreters")
        self.assertEqual((told.returncode, told.stderr), (0, ""), told.stdout)
        text = "nm_set can be imported by the first interpreter of a process alone"
        self.assertEqual(told.stdout.count(text), 2 if nm_set.is_native else 1, told.stdout)
        self.assertTrue(told.stdout.endswith("the first goes on\n"), told.stdout)

    def test_the_example_of_the_module_does_what_it_shows(self) -> None:
        shown = doctest.testmod(nm_set)
        self.assertEqual((shown.failed, shown.attempted), (0, 3))

    def test_versions_agree(self) -> None:
        self.assertEqual(_library._version_of(_library.exports), nm_set.__version__)


if __name__ == "__main__":
    unittest.main()
