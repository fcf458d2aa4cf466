#!/usr/bin/env python3
"""Installs the packages of Debian that the gate needs and that are missing, or names them and fails.

    scripts/needs.py [--check]      `--check` installs nothing

It calls `apt-get` once, and only if something is missing. The last line names what is missing, or says that everything
is installed.
"""

from __future__ import annotations

import argparse
import glob
import importlib.util
import os
import shutil
import subprocess
import sys
import sysconfig

# The script that runs a command says what it is for; each comes with its package.
COMMANDS = {
    "c++": "g++",
    "cc": "gcc",
    "clang++": "clang",
    "clang-format": "clang-format",
    "clang-tidy": "clang-tidy",
    "cmake": "cmake",
    "flake8": "flake8",
    "g++": "g++",
    "gcc": "gcc",
    "make": "make",
    "mount": "mount",
    "mypy": "mypy",
    "objcopy": "binutils",
    "pkg-config": "pkg-config",
    "shellcheck": "shellcheck",
}
# Files, by pattern, of packages without a command, and of those for Debian's Python, which may not be the first on the
# path: with them bindings/test.sh builds the package of Python.
FILES = {
    "/usr/bin/python3-config": "python3-dev",
    "/usr/include/absl/container/btree_map.h": "libabsl-dev",
    "/usr/lib/python3.*/ensurepip/__init__.py": "python3-venv",
    "/usr/lib/python3/dist-packages/numpy/__init__.py": "python3-numpy",
    "/usr/lib/python3/dist-packages/setuptools/__init__.py": "python3-setuptools",
    "/usr/lib/python3/dist-packages/wheel/__init__.py": "python3-wheel",
}
# What the first Python on the path needs to build the compiled module, and CPython's own tests.
HEADER = os.path.join(sysconfig.get_path("include"), "Python.h")
MODULES = {"setuptools": "python3-setuptools", "test.test_set": "libpython3-testsuite"}


def missing() -> list[str]:
    """Returns the packages whose commands or files are missing."""
    lacking = {package for command, package in COMMANDS.items() if not shutil.which(command)}
    lacking |= {package for file, package in FILES.items() if not glob.glob(file)}
    lacking |= {package for module, package in MODULES.items() if not importlib.util.find_spec(module)}
    lacking |= set() if os.path.exists(HEADER) else {"python3-dev"}
    return sorted(lacking)


def install(packages: list[str]) -> None:
    """Installs packages by `apt-get`; `missing` then shows the result."""
    if os.geteuid() != 0 or not shutil.which("apt-get"):
        return
    quiet = {**os.environ, "DEBIAN_FRONTEND": "noninteractive"}
    subprocess.run(["apt-get", "update", "-qq"], env=quiet)
    subprocess.run(["apt-get", "install", "-y", "-qq", "--no-install-recommends", *packages], env=quiet)


def main() -> int:
    ask = argparse.ArgumentParser(description="Installs the packages of Debian that the gate needs.")
    ask.add_argument("--check", action="store_true", help="install nothing")
    given = ask.parse_args()
    lacking = missing()
    if lacking and not given.check:
        install(lacking)
        lacking = missing()
    if lacking:
        print(f"the gate needs what is missing here: apt-get install {' '.join(lacking)}")
        return 1
    print("all that the gate needs is installed")
    return 0


if __name__ == "__main__":
    sys.exit(main())
