"""Builds the package by setuptools. pyproject.toml has the metadata.

The library is the one that `make -C bindings/c` built or, with UNPROVED=1 in the environment, the one of
`make -C bindings/c UNPROVED=1`, which is then built if it is missing. With an unproved library the version of the
package ends in `+unproved`. A source distribution contains the library, for the platform on which it was made. What
INDEXSET_PROOF says of the proof becomes `indexset.PROOF` of the package; scripts/build_wheel.py sets it.

If the compiled module cannot be built, for example because a C compiler or Python's headers are missing, the package
uses ctypes. Only `build_ext`, the command for the module, fails then. All intermediate files are in a temporary folder,
so a wheel contains no file of an earlier build.
"""
import ctypes
import os
import pathlib
import shlex
import shutil
import subprocess
import sys
import sysconfig
import tempfile

import setuptools
from setuptools.command.build_ext import build_ext
from setuptools.command.build_py import build_py
from setuptools.command.sdist import sdist

try:
    from setuptools.command.bdist_wheel import bdist_wheel
except ImportError:
    try:
        from wheel.bdist_wheel import bdist_wheel
    except ImportError:
        bdist_wheel = None

HERE = pathlib.Path(__file__).resolve().parent
MADE_BY = "make -C bindings/c" + (" UNPROVED=1" if os.environ.get("UNPROVED") else "")
BUILT = HERE.parent / "c/out" / ("unproved" if os.environ.get("UNPROVED") else "")
NATIVE = {
    "libindexset.so": BUILT / "libindexset.so",
    "libindexset.a": BUILT / "libindexset.a",
    "indexset.h": HERE.parent / "c/include/indexset.h",
}
PROOF = "proof.txt"  # in the package, and beside the library in a source distribution
OLDEST = 64  # the first major version of setuptools with editable installs by a wheel


def native(name):
    """Returns a file of the library: beside this one in a source distribution, otherwise where make puts it."""
    beside = HERE / "native" / name
    return beside if beside.exists() else NATIVE[name]


def make_unproved():
    """Builds the library without proofs if it is asked for and missing."""
    if os.environ.get("UNPROVED") and not native("libindexset.so").exists() and (HERE.parent / "c/Makefile").exists():
        print(f"indexset: unproved: `{MADE_BY}` takes about a minute", file=sys.stderr, flush=True)
        subprocess.run(["make", "-s", "-C", str(HERE.parent / "c")], stdout=sys.stderr)


def is_proved():
    """Returns whether the library says that it is proved."""
    return ctypes.c_int.in_dll(ctypes.CDLL(str(native("libindexset.so"))), "indexset_proved").value == 1


def put_proof(folder):
    """Writes what is known of the proof of the library into a folder."""
    beside = HERE / "native" / PROOF
    text = beside.read_text(encoding="utf-8") if beside.exists() else os.environ.get("INDEXSET_PROOF", "")
    if text:
        pathlib.Path(folder, PROOF).write_text(text, encoding="utf-8")


def fault():
    """Returns what prevents any build, or None: an old tool, or a library that is missing or for another platform."""
    if int(setuptools.__version__.split(".")[0]) < OLDEST:
        return f"setuptools {OLDEST} or later is needed, not {setuptools.__version__}"
    if bdist_wheel is None and {"build_ext", "sdist"}.isdisjoint(sys.argv):
        return "the Python package wheel is missing; Debian has it in python3-wheel"
    library = native("libindexset.so")
    if not library.exists():
        return f"{library} is missing; `{MADE_BY}` makes it"
    try:
        ctypes.CDLL(str(library))
    except OSError as error:
        return f"the library does not fit this Python on {sysconfig.get_platform()}: {error}"
    return None


def choose_compiler():
    """Names `cc` in the environment if the compiler that it names, or that built Python, is not installed."""
    words = shlex.split(os.environ.get("CC") or sysconfig.get_config_var("CC") or "cc")
    if not shutil.which(words[0]):
        os.environ["CC"] = "cc"


def speedups():
    """Returns the compiled module. It has no debug information, unless CFLAGS asks for some."""
    debug = [] if "-g" in os.environ.get("CFLAGS", "").split() else ["-g0"]
    return setuptools.Extension(
        "indexset._speedups",
        sorted(str(it.relative_to(HERE)) for it in HERE.glob("src/speedups/*.c")),
        include_dirs=["src/speedups", str(native("indexset.h").parent)],
        extra_compile_args=["-O2", *debug, "-fvisibility=hidden"],
        extra_objects=[str(native("libindexset.a"))],
        optional="build_ext" not in sys.argv,
    )


class Package(build_py):
    """The modules in Python, with the library. An editable install finds the library where make puts it."""

    def run(self):
        super().run()
        if not self.editable_mode:
            self.copy_file(str(native("libindexset.so")), os.path.join(self.build_lib, "indexset"))
            put_proof(os.path.join(self.build_lib, "indexset"))


class Module(build_ext):
    """The compiled module. An editable install uses ctypes, unless `build_ext --inplace` has built the module."""

    def run(self):
        if not self.editable_mode:
            super().run()


class Source(sdist):
    """A source distribution, with the built library."""

    def make_release_tree(self, base_dir, files):
        super().make_release_tree(base_dir, [it for it in files if not os.path.isabs(it)])
        self.mkpath(os.path.join(base_dir, "native"))
        for name in NATIVE:
            self.copy_file(str(native(name)), os.path.join(base_dir, "native"))
        put_proof(os.path.join(base_dir, "native"))


COMMANDS = {"build_py": Package, "build_ext": Module, "sdist": Source}
if bdist_wheel is not None:

    class Wheel(bdist_wheel):
        """A wheel of the platform; without the compiled module it fits each Python 3."""

        def get_tag(self):
            python, abi, platform = super().get_tag()
            has_module = any(pathlib.Path(self.bdist_dir, "indexset").glob("_speedups*"))
            return (python, abi, platform) if has_module else ("py3", "none", platform)

    COMMANDS["bdist_wheel"] = Wheel

if __name__ == "__main__":
    make_unproved()
    wrong = fault()
    if wrong is not None:
        sys.exit(f"indexset: {wrong}")
    choose_compiler()
    label = "" if is_proved() else "+unproved"
    with tempfile.TemporaryDirectory() as room:
        setuptools.setup(
            package_dir={"": "src"},
            packages=["indexset"],
            package_data={"indexset": ["py.typed"]},
            cmdclass=COMMANDS,
            ext_modules=[speedups()],
            options={"build": {"build_base": room}, "egg_info": {"egg_base": room, "tag_build": label}},
        )
