#!/usr/bin/env python3
"""Tests scripts/pack_proofs on two small checkouts, with a file or two in place of a built library.

The last line is 'N passed, M failed'.
"""

from __future__ import annotations

import contextlib
import functools
import gzip
import importlib.machinery
import importlib.util
import io
import json
import os
import pathlib
import shutil
import subprocess
import sys
import tarfile
import tempfile
from collections.abc import Callable
from unittest import mock

TOP = pathlib.Path(__file__).resolve().parent.parent
sys.dont_write_bytecode = True
sys.path.insert(0, str(TOP / "scripts"))
import kit  # noqa: E402
import testing  # noqa: E402

NAMES = ["indexset_core", "indexset_index"]
TOLD = {"format": b"of ", "toolchain/checked.a": bytes(range(256)) * 40}
TOOL = TOP / "scripts/pack_proofs"


def laid_out(top: pathlib.Path) -> pathlib.Path:
    """Makes a checkout of two crates, without built libraries."""
    lines = (TOP / "crates.txt").read_text(encoding="utf-8").splitlines(keepends=True)
    for name in NAMES:
        for part in ("src", "specs", "proofs"):
            source = TOP / "crates" / name / part
            shutil.copytree(source, top / "crates" / name / part) if source.is_dir() else None
    (top / ".git").mkdir()
    (top / "crates.txt").write_text("".join(it for it in lines if it.partition(":")[0] in NAMES), encoding="utf-8")
    return top


def library(top: pathlib.Path, name: str) -> pathlib.Path:
    return top / "crates" / name / f"out/rlib/{name}.rlib"


def built(top: pathlib.Path) -> pathlib.Path:
    """Makes a checkout whose libraries look built."""
    laid_out(top)
    for name, (file, data) in ((name, it) for name in NAMES for it in TOLD.items()):
        to = library(top, name) / file
        to.parent.mkdir(parents=True, exist_ok=True)
        to.write_bytes(data + name.encode())
    kit.stamp(top)
    return top


@functools.cache
def tool() -> Callable[[], int]:
    """Returns the `main` of scripts/pack_proofs, loaded once: the toolchain's module, which it loads, takes long to
    read."""
    kit.identity = functools.cache(kit.identity)
    loader = importlib.machinery.SourceFileLoader("pack_proofs", str(TOOL))
    spec = importlib.util.spec_from_loader("pack_proofs", loader)
    assert spec
    made = sys.modules["pack_proofs"] = importlib.util.module_from_spec(spec)
    loader.exec_module(made)
    main: Callable[[], int] = made.main
    return main


def proved(*words: str | pathlib.Path) -> tuple[bool, str]:
    """Runs scripts/pack_proofs in this process. Returns whether it succeeded, and its output."""
    said = io.StringIO()
    with mock.patch("sys.argv", [str(TOOL), *map(str, words)]), contextlib.redirect_stdout(
        said
    ), contextlib.redirect_stderr(said):
        try:
            status = tool()()
        except SystemExit as why:
            raise AssertionError(f"scripts/pack_proofs stopped: {why}: {said.getvalue()}") from why
    return status == 0, said.getvalue()


def by_itself(*words: str | pathlib.Path) -> tuple[bool, str]:
    """Runs scripts/pack_proofs as a command. Returns whether it succeeded, and its output."""
    ran = subprocess.run([sys.executable, TOOL, *words], capture_output=True, text=True)
    if ran.returncode not in (0, 1):
        raise AssertionError(f"scripts/pack_proofs ended with status {ran.returncode}: {ran.stderr}")
    return ran.returncode == 0, ran.stdout + ran.stderr


def packed(room: pathlib.Path) -> pathlib.Path:
    """Makes a pack of a checkout's two libraries."""
    file = room / "pack.tgz"
    well, said = proved("pack", file, "--of", built(room / "from"), "--crate", "indexset_index")
    assert well, said
    return file


def remade(file: pathlib.Path, change: Callable[[str, bytes], tuple[str, bytes]]) -> None:
    """Rewrites a pack, with the names and the data of its entries changed."""
    made = file.with_suffix(".new")
    with tarfile.open(file) as old, tarfile.open(made, "w:gz") as new:
        for entry in old.getmembers():
            source = old.extractfile(entry)
            assert source
            entry.name, data = change(entry.name, source.read())
            entry.size = len(data)
            with tempfile.TemporaryFile() as it:
                it.write(data)
                it.seek(0)
                new.addfile(entry, it)
    made.replace(file)


def is_refused(room: pathlib.Path, file: pathlib.Path, why: str) -> None:
    """Asserts that a pack is refused for a reason, and that nothing of it is unpacked."""
    to = room / "to"
    if not to.exists():
        laid_out(to)
    well, said = proved("lay", file, to)
    assert not well and why in said, said
    assert not any(library(to, name).exists() for name in NAMES), "something was laid"
    assert not any((to / "out").iterdir()), "a folder is left"


def of_manifest(key: str, value: object) -> Callable[[str, bytes], tuple[str, bytes]]:
    """Returns a change of the manifest of a pack."""

    def change(name: str, data: bytes) -> tuple[str, bytes]:
        if name != "manifest.json":
            return name, data
        return name, json.dumps({**json.loads(data), key: value}).encode()

    return change


def test_round_trip(room: pathlib.Path) -> None:
    to, pack = laid_out(room / "to"), room / "pack.tgz"
    well, said = by_itself("pack", pack, "--of", built(room / "from"), "--crate", "indexset_index")
    assert well, said
    well, said = by_itself("lay", pack, to)
    assert well and "rt verdict" in said, said
    for name, (file, data) in ((name, it) for name in NAMES for it in TOLD.items()):
        assert (library(to, name) / file).read_bytes() == data + name.encode(), f"{name}: {file} differs"
    assert all(kit.is_built(it, it) for it in kit.crates(to)), "a library does not pass for built"


def test_laid_in_place_of_what_was_there(room: pathlib.Path) -> None:
    to = built(room / "to")
    (library(to, NAMES[0]) / "left").write_text("over")
    well, said = proved("lay", packed(room), to)
    assert well, said
    assert not (library(to, NAMES[0]) / "left").exists(), "an old file is left"


def test_changed_byte(room: pathlib.Path) -> None:
    file = packed(room)
    remade(file, lambda name, data: (name, data[:-1] + b"?" if name.endswith("checked.a") else data))
    is_refused(room, file, "is not as it was packed")


def test_cut_off(room: pathlib.Path) -> None:
    file = packed(room)
    file.write_bytes(file.read_bytes()[: file.stat().st_size // 2])
    is_refused(room, file, "cannot be unpacked")


def test_no_pack(room: pathlib.Path) -> None:
    file = room / "text.tgz"
    file.write_bytes(gzip.compress(b"no archive"))
    is_refused(room, file, "cannot be unpacked")


def test_changed_source(room: pathlib.Path) -> None:
    to = laid_out(room / "to")
    with open(to / "crates/indexset_core/src/lib.rt", "a", encoding="utf-8") as it:
        it.write("// changed\n")
    is_refused(room, packed(room), "other sources of indexset_core, indexset_index")


def test_other_kit(room: pathlib.Path) -> None:
    file = packed(room)
    remade(file, of_manifest("kit", "rattle-kit-1 logic 0"))
    is_refused(room, file, "it was made by rattle-kit-1 logic 0")


def test_file_that_is_not_listed(room: pathlib.Path) -> None:
    file = packed(room)
    remade(file, of_manifest("files", {}))
    is_refused(room, file, "does not list as a file")


def test_file_that_is_not_there(room: pathlib.Path) -> None:
    file = packed(room)
    name = "indexset_core/indexset_core.rlib/zzz"
    with tarfile.open(file) as it:
        first = it.extractfile("manifest.json")
        assert first
        files = json.load(first)["files"]
    remade(file, of_manifest("files", {**files, name: "0"}))
    is_refused(room, file, f"it lacks {name}")


def test_ways_out(room: pathlib.Path) -> None:
    for way in ("../out", "/etc/out", "indexset_core/out/x", "indexset_core/indexset_core.rlib/../../x"):
        file = packed(pathlib.Path(tempfile.mkdtemp(dir=room)))
        old = "indexset_core/indexset_core.rlib/format"

        def renamed(name: str, data: bytes, way: str = way) -> tuple[str, bytes]:
            return (way if name == old else name), data.replace(old.encode(), way.encode())

        remade(file, renamed)
        is_refused(room, file, "lies outside")


def test_link(room: pathlib.Path) -> None:
    file = packed(room)
    made = file.with_suffix(".new")
    with tarfile.open(file) as old, tarfile.open(made, "w:gz") as new:
        for entry in old.getmembers():
            if entry.name.endswith("format"):
                entry.type, entry.linkname, entry.size = tarfile.SYMTYPE, "/etc/hostname", 0
            new.addfile(entry, old.extractfile(entry) if entry.isfile() else None)
    made.replace(file)
    is_refused(room, file, "does not list as a file")


def test_kept_for_these_sources(room: pathlib.Path) -> None:
    os.environ["XDG_CACHE_HOME"] = str(room / "cache")
    top, to = built(room / "from"), laid_out(room / "to")
    name = ("--crate", "indexset_index")
    well, said = proved("lay", to, *name)
    assert not well and "there is no such file" in said, said
    well, said = proved("pack", "--of", top, *name)
    assert well, said
    well, said = proved("lay", to, *name)
    assert well and all(kit.is_built(it, it) for it in kit.crates(to)), said


def test_packs_no_stale_library(room: pathlib.Path) -> None:
    top = built(room / "from")
    with open(top / "crates/indexset_core/src/lib.rt", "a", encoding="utf-8") as it:
        it.write("// changed\n")
    well, said = proved("pack", room / "pack.tgz", "--of", top, "--crate", "indexset_index")
    assert not well and "not built of these sources: indexset_core, indexset_index" in said, said


def in_a_room(test: Callable[[pathlib.Path], None]) -> None:
    """Runs a test in a folder of its own."""
    with tempfile.TemporaryDirectory(prefix="proved-") as room:
        test(pathlib.Path(room))


if __name__ == "__main__":
    tests = {name: functools.partial(in_a_room, it) for name, it in globals().items() if name.startswith("test_")}
    sys.exit(testing.run("Tests scripts/pack_proofs on two small checkouts.", tests))
