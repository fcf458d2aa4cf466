"""Tests the package as pip and setuptools build it, in an environment of its own, without a network.

The Python that runs it needs the packages setuptools and wheel. With UNPROVED=1 in the environment the library is the
one of `make -C bindings/c UNPROVED=1`.
"""
import hashlib
import os
import pathlib
import re
import shutil
import subprocess
import sys
import sysconfig
import tempfile
import unittest
import zipfile

import counted

HERE = pathlib.Path(__file__).resolve().parent.parent
IS_PROVED = not os.environ.get("UNPROVED")
VERSION = "0.2.0" if IS_PROVED else "0.2.0+unproved"
MADE_BY = "make -C bindings/c" if IS_PROVED else "make -C bindings/c UNPROVED=1"
SAYS = (
    "import indexset; print(indexset.BACKEND, indexset.PROVED, indexset.SortedSet([2, 1]),"
    " len(indexset.LoggedDict(None, {'a': 1})))"
)


def has_compiler():
    """Returns whether there are a C compiler and Python's headers, so that setuptools builds the compiled module."""
    header = pathlib.Path(sysconfig.get_path("include"), "Python.h")
    return shutil.which("cc") is not None and header.exists()


def ran(*words, folder="/", **more):
    """Returns the status of a command and its output."""
    where = {name: value for name, value in os.environ.items() if not name.startswith(("INDEXSET_", "PYTHON"))}
    done = subprocess.run(
        list(map(str, words)),
        stdout=subprocess.PIPE,
        stderr=subprocess.STDOUT,
        text=True,
        cwd=folder,
        env={**where, **more},
    )
    return done.returncode, done.stdout


def present():
    """Returns the files and folders of the sources, without those of the other tests, which run at the same time."""
    return {it for it in HERE.rglob("*") if HERE / "out" not in (it, *it.parents) and "__pycache__" not in it.parts}


class Package(unittest.TestCase):
    @classmethod
    def setUpClass(cls):
        cls.room = tempfile.TemporaryDirectory()
        cls.folder = pathlib.Path(cls.room.name)
        cls.backend = "extension" if has_compiler() else "ctypes"
        status, said = ran(sys.executable, "-m", "venv", "--system-site-packages", cls.folder / "fresh")
        if status:
            raise RuntimeError(f"no environment can be made: {said.splitlines()[-1]}")
        cls.python = cls.folder / "fresh/bin/python"
        cls.pip = cls.python, "-m", "pip", "--disable-pip-version-check"

    @classmethod
    def tearDownClass(cls):
        cls.room.cleanup()

    def setUp(self):
        self.before = present()

    def tearDown(self):
        self.assertEqual(present(), self.before, "a build leaves files among the sources")

    def install(self, *words, backend, where=None, **more):
        offline = "--no-index", "--no-build-isolation"
        status, said = ran(*self.pip, "install", *offline, "--force-reinstall", *words, **more)
        self.assertEqual(status, 0, said)
        said = ran(self.python, "-c", SAYS, **(where or {}))[1]
        self.assertEqual(said, f"{backend} {IS_PROVED} SortedSet([1, 2]) 1\n")
        about = ran(*self.pip, "show", "indexset")[1]
        self.assertIn("License: Apache-2.0", about)
        self.assertIn(f"Version: {VERSION}\n", about)
        self.assertEqual(ran(*self.pip, "uninstall", "-y", "indexset")[0], 0)

    def wheel(self, **more):
        """Returns the wheel that pip builds."""
        to = pathlib.Path(tempfile.mkdtemp(dir=self.folder))
        offline = "--no-index", "--no-build-isolation"
        status, said = ran(*self.pip, "wheel", *offline, "--no-deps", "-w", to, HERE, **more)
        self.assertEqual(status, 0, said)
        return next(to.iterdir())

    def test_folder(self):
        self.install(HERE, backend=self.backend)

    def test_source_distribution(self):
        status, said = ran(self.python, "setup.py", "-q", "sdist", "-d", self.folder, folder=HERE)
        self.assertEqual(status, 0, said)
        self.install(self.folder / f"indexset-{VERSION}.tar.gz", backend=self.backend)

    def test_editable(self):
        library = {} if IS_PROVED else {"INDEXSET_LIBRARY": str(HERE.parent / "c/out/unproved/libindexset.so")}
        self.install("-e", HERE, backend="ctypes", where=library)

    def test_without_a_compiler(self):
        self.install(HERE, backend="ctypes", PATH="/nowhere", CC="no-compiler")

    def test_tags(self):
        platform = sysconfig.get_platform().replace("-", "_").replace(".", "_")
        python = f"cp{sys.version_info.major}{sys.version_info.minor}"
        tags = {"ctypes": f"py3-none-{platform}", "extension": f"{python}-{python}-{platform}"}
        made = self.wheel()
        self.assertEqual(made.name, f"indexset-{VERSION}-{tags[self.backend]}.whl")
        names = set(zipfile.ZipFile(made).namelist())
        for name in ("indexset/py.typed", "indexset/libindexset.so"):
            self.assertIn(name, names)
        self.assertRegex("\n".join(names), f"(?m)^indexset-{re.escape(VERSION)}.dist-info/(licenses/)?LICENSE$")
        made = self.wheel(PATH="/nowhere", CC="no-compiler")
        self.assertEqual(made.name, f"indexset-{VERSION}-{tags['ctypes']}.whl")
        self.assertNotIn("_speedups", "".join(zipfile.ZipFile(made).namelist()))

    def test_one_command(self):
        """A wheel of one command, installed in an environment that has nothing else, says what its proof is."""
        words = [] if IS_PROVED else ["--unproved"]
        script = HERE.parent.parent / "scripts/build_wheel.py"
        status, said = ran(self.python, script, *words, "-o", self.folder / "made")
        self.assertEqual(status, 0, said)
        made, _, proof = said.splitlines()[-1].partition(": ")
        self.assertEqual(pathlib.Path(made).parent, self.folder / "made")
        self.assertTrue(pathlib.Path(made).name.startswith(f"indexset-{VERSION}-"), made)
        kit, logic = ran("rt", "version")[1].strip().split(" logic ")
        commit = ran("git", "rev-parse", "HEAD", folder=HERE)[1].strip()
        total = hashlib.sha256(zipfile.ZipFile(made).read("indexset/libindexset.so")).hexdigest()
        unproved = "" if IS_PROVED else "unproved: "
        wanted = f"{unproved}{kit}, logic {logic}, commit {commit}( with changes)?, sha256 {total}"
        self.assertRegex(proof, f"^{wanted}$")
        self.assertEqual(ran(sys.executable, "-m", "venv", self.folder / "clean")[0], 0)
        python = self.folder / "clean/bin/python"
        status, said = ran(python, "-m", "pip", "--disable-pip-version-check", "install", "--no-index", made)
        self.assertEqual(status, 0, said)
        self.assertIn(f"Successfully installed indexset-{VERSION}", said)
        said = ran(python, "-I", "-c", f"{SAYS}; print(indexset.PROOF)")[1]
        self.assertEqual(said, f"{self.backend} {IS_PROVED} SortedSet([1, 2]) 1\n{proof}\n")

    @unittest.skipIf(IS_PROVED, "the library without proofs is not built")
    def test_one_switch(self):
        """With UNPROVED=1 pip builds the library without proofs if it is missing. Here make copies one."""
        bindings = self.folder / "switch/bindings"
        shutil.copytree(HERE, bindings / "python", ignore=shutil.ignore_patterns("out"))
        shutil.copytree(HERE.parent / "c/include", bindings / "c/include")
        built = HERE.parent / "c/out/unproved"
        rule = f"all:\n\tmkdir -p out/unproved && cp {built}/libindexset.* out/unproved\n"
        (bindings / "c/Makefile").write_text(rule, encoding="utf-8")
        self.install(bindings / "python", backend=self.backend)

    def test_without_the_library(self):
        shutil.copytree(HERE, self.folder / "bare/bindings/python", ignore=shutil.ignore_patterns("out"))
        bare = self.folder / "bare/bindings/python"
        status, said = ran(*self.pip, "install", "--no-index", "--no-build-isolation", bare)
        self.assertNotEqual(status, 0)
        self.assertNotIn("Traceback", said)
        self.assertRegex(said, f"libindexset.so is missing; `{MADE_BY}` makes it")
        status, said = ran(sys.executable, "-c", "import indexset", PYTHONPATH=str(bare / "src"))
        self.assertRegex(said.splitlines()[-1], "^ImportError: indexset lacks its library")


if __name__ == "__main__":
    counted.main("package")
