"""Runs the tests of `sortedcontainers`, and CPython's tests of sets, mappings and lists, with our classes.

The former are fetched from Debian's source package into a folder outside the repository, from the mirror that
INDEXSET_DEBIAN names; `--folder` is one where it is unpacked already. It is a failure if they cannot be fetched.
Tests of the internals of `sortedcontainers` are left out, by name. The last line counts the others.
"""
import argparse
import collections
import concurrent.futures
import contextlib
import hashlib
import importlib
import importlib.util
import io
import json
import os
import pathlib
import random
import subprocess
import sys
import tarfile
import tempfile
import types
import unittest
import urllib.request

NAME = "sortedcontainers_2.4.0.orig.tar.gz"
SUM = "70e22f4fd29b204f75f989e3c1e847aa1de267a028aab4233c0db783aaff78c1"
PLACE = "/pool/main/s/sortedcontainers/"
MIRROR = os.environ.get("INDEXSET_DEBIAN", "http://deb.debian.org/debian")
FOLDER = pathlib.Path(tempfile.gettempdir()) / f"indexset-peer-{os.getuid()}"

KINDS = (
    "coverage_sortedset",
    "stress_sortedset",
    "coverage_sorteddict",
    "stress_sorteddict",
    "coverage_sortedlist",
    "stress_sortedlist",
    "coverage_sortedkeylist_modulo",
    "coverage_sortedkeylist_negate",
    "stress_sortedkeylist",
)

# The internals of `sortedcontainers` that each omitted test examines.
LISTS, LOAD, LENGTH = "_lists, _maxes", "_load", "sets _len"
INSIDE = {
    "stress_sortedset": {"test_init": "_list._load"},
    "coverage_sorteddict": {"test_notgiven": "__not_given"},
    "coverage_sortedlist": {
        "test_init": LOAD,
        "test_delete": LISTS,
        "test_repr_recursion": LISTS,
        "test_pickle": LOAD,
        "test_build_index": "_build_index",
        "test_check": LENGTH,
    },
    "coverage_sortedkeylist_modulo": {
        "test_init": LOAD,
        "test_delete": LISTS,
        "test_getitem": "_build_index",
        "test_repr_recursion": LISTS,
        "test_check": LENGTH,
    },
    "coverage_sortedkeylist_negate": {
        "test_init": LOAD,
        "test_delete": LISTS,
        "test_pickle": LOAD,
        "test_check": LENGTH,
    },
    "stress_sortedlist": {"test_stress": LISTS},
    "stress_sortedkeylist": {"test_stress": LISTS},
}

# Differences by ctypes only: its iterators are generators, and it wraps an error of the recursion.
BY_CTYPES = {
    "TestSet.test_iterator_pickling",
    "TestHashMappingProtocol.test_repr_deep",
    "Lists.test_repr_deep",
}

CPYTHON = {"set": "test.test_set", "dict": "test.mapping_tests", "list": "test.list_tests"}


def fetched():
    """Returns the folder of the source package, or None if it cannot be fetched, which it prints."""
    folder = FOLDER / "python-sortedcontainers-2.4.0"
    if folder.is_dir():
        return folder
    FOLDER.mkdir(exist_ok=True)
    try:
        with urllib.request.urlopen(MIRROR + PLACE + NAME, timeout=30) as answer:
            archive = answer.read()
    except OSError as error:
        print(f"sortedcontainers' tests cannot be fetched: {MIRROR} cannot be reached ({error})")
        return None
    if hashlib.sha256(archive).hexdigest() != SUM:
        raise SystemExit(f"{NAME} is not the file that is known")
    with tempfile.TemporaryDirectory(dir=FOLDER) as room:
        with tarfile.open(fileobj=io.BytesIO(archive)) as out:
            out.extractall(room)
        with contextlib.suppress(OSError):  # (another process was first)
            os.rename(pathlib.Path(room, folder.name), folder)
    return folder


# ---- our classes in place of theirs


def lay_ours():
    """Makes our package `sortedcontainers`. The peer's checks of its internals do nothing."""
    import indexset

    module = types.ModuleType("sortedcontainers")
    for name in ("SortedDict", "SortedKeyList", "SortedList", "SortedSet"):
        found = getattr(indexset, name)
        setattr(module, name, found)
        found._reset = lambda self, load: None
        found._check = lambda self: None
    module.SortedListWithKey = module.SortedKeyList
    module.SortedSet._set = property(set)
    for found in (module.SortedDict, module.SortedSet, module.SortedKeyList):
        found._key = property(lambda self: self.key)
    module.SortedList._len = property(len)
    sys.modules["sortedcontainers"] = module


def lay_pytest():
    """The part of pytest that the tests use."""
    module, case = types.ModuleType("pytest"), unittest.TestCase()
    module.raises = case.assertRaises
    sys.modules["pytest"] = module


def run_file(folder, kind):
    """Returns the outcome of each test of a file: None, or the line of its error."""
    sys.path.insert(0, str(folder))
    lay_pytest()
    module = importlib.import_module(f"tests.test_{kind}")
    found = {}
    for name, test in list(vars(module).items()):
        if name.startswith("test_") and callable(test):
            found[name] = outcome(test)
    if "test_stress" in INSIDE.get(kind, {}):
        found["test_stress, shortened by `del`"] = outcome(lambda: stress(module))
    return found


def stress(module):
    """The actions of a stress test that shortens its list by its internals."""
    cls = getattr(module, "SortedKeyList", None) or module.SortedList
    items = cls(random.random() for _ in range(1000))
    for _ in range(1000):
        random.choice(module.actions)(items)
        if len(items) > 2000:
            del items[:1000]


def outcome(test):
    try:
        test()
    except Exception as error:
        return f"{type(error).__name__}: {error}"[:200]
    return None


# ---- CPython's tests


def cases_of(what):
    """CPython's test cases, each with the class in its place."""
    import sortedcontainers as peer

    module = importlib.import_module(CPYTHON[what])
    if what == "set":
        module.set = peer.SortedSet
        module.TestSet.thetype = module.TestSet.basetype = peer.SortedSet
        names = [
            name
            for name, case in vars(module).items()
            if isinstance(case, type) and issubclass(case, unittest.TestCase)
        ]
        return [
            getattr(module, name)
            for name in names
            if "Frozen" not in name and "Weird" not in name and "Threads" not in name
        ]
    if what == "list":
        return [type("Lists", (module.CommonTest,), {"type2test": peer.SortedList})]
    names = ("BasicTestMappingProtocol", "TestMappingProtocol", "TestHashMappingProtocol")
    return [type(name, (getattr(module, name), unittest.TestCase), {"type2test": peer.SortedDict}) for name in names]


def run_cpython(what):
    found = {}
    for case in cases_of(what):
        for test in unittest.defaultTestLoader.loadTestsFromTestCase(case):
            result = unittest.TestResult()
            test.run(result)
            wrong = [text.strip().splitlines()[-1][:200] for _, text in result.errors + result.failures]
            found[f"{case.__name__}.{test._testMethodName}"] = wrong[0] if wrong else None
    return found


# ---- the counts


def outcomes(folder, part, whose):
    """Returns the outcomes of a file, run in a process of its own."""
    words = [sys.executable, __file__, "--part", part, "--whose", whose, "--folder", str(folder)]
    done = subprocess.run(words, capture_output=True, text=True, timeout=600)
    if done.returncode:
        return {"(the file)": done.stderr.strip().splitlines()[-1]}
    return json.loads(done.stdout.splitlines()[-1])


def of_peer(folder, kind):
    """Returns the results of a file of the peer, as a text and as counts."""
    found, inside = outcomes(folder, kind, "ours"), INSIDE.get(kind, {})
    wrong = {name: error for name, error in found.items() if error is not None and name not in inside}
    passed = sum(error is None for name, error in found.items() if name not in inside)
    lines = [f"test_{kind}: {passed} passed, {len(wrong)} failed, {len(inside)} left out"]
    lines += [f"  {name} looks at {what}" for name, what in inside.items()]
    lines += [f"  failed: {name}: {error}" for name, error in wrong.items()]
    return "\n".join(lines), collections.Counter(passed=passed, failed=len(wrong))


def of_cpython(folder, what):
    """Returns the results of CPython's tests. A test that the peer fails too is not a failure."""
    ours, theirs = outcomes(folder, what, "ours"), outcomes(folder, what, "theirs")
    worse = {name: error for name, error in ours.items() if error is not None and theirs.get(name) is None}
    if os.environ.get("INDEXSET_BACKEND") == "ctypes":
        worse = {name: error for name, error in worse.items() if name not in BY_CTYPES}
    counts = [sum(error is None for error in found.values()) for found in (ours, theirs)]
    lines = [f"{CPYTHON[what]}: {counts[0]} of {len(ours)} passed, sortedcontainers {counts[1]}"]
    lines += [f"  failed where sortedcontainers passes: {name}: {error}" for name, error in worse.items()]
    return "\n".join(lines), collections.Counter(passed=counts[0], failed=len(worse))


def main():
    words = argparse.ArgumentParser(description=__doc__, formatter_class=argparse.RawDescriptionHelpFormatter)
    words.add_argument("--part", help="runs only this file, and prints its outcomes as JSON")
    words.add_argument("--whose", choices=("ours", "theirs"), default="ours")
    words.add_argument("--folder", type=pathlib.Path, help="the source package, where it is unpacked already")
    given = words.parse_args()
    folder = given.folder or fetched()
    if folder is None:
        return 1
    if given.part:
        lay_ours() if given.whose == "ours" else sys.path.insert(0, str(folder))
        print(json.dumps(run_cpython(given.part) if given.part in CPYTHON else run_file(folder, given.part)))
        return 0
    if not importlib.util.find_spec("test.test_set"):
        print("CPython's own tests are missing; Debian has them in libpython3-testsuite")
        return 1
    parts = [*((of_peer, kind) for kind in KINDS), *((of_cpython, what) for what in CPYTHON)]
    with concurrent.futures.ThreadPoolExecutor(4) as pool:
        found = [pool.submit(call, folder, part) for call, part in parts]
    total = collections.Counter()
    for one in found:
        text, counts = one.result()
        print(text)
        total += counts
    print(f"peers' tests: {total['passed']} passed, {total['failed']} failed")
    return 1 if total["failed"] else 0


if __name__ == "__main__":
    sys.exit(main())
