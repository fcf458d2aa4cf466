#!/usr/bin/env python3
"""Builds programs of one file each as one program, whose first argument selects the one to run.

    scripts/together.py FOLDER [--edits]

It copies the crates of this repository that the gate proves into a folder, as scripts/lay.py does, but those programs
as modules of one crate, with their proofs: so what they use is read and compiled once, and not for each. With `--edits`
the wrong bodies are copied too, those of the programs as ones of the modules.
"""

from __future__ import annotations

import argparse
import pathlib
import re
import shutil

import lay

NAME = "indexset_programs"
ROOT, FILE = "#![tactic(auto)]\n", pathlib.Path("src/main.rt")  # the first line and the file of a program
BEGIN = "\nfn main(rt: HostRuntime) -> Result<()>"
WITHIN = BEGIN.replace("fn", "pub fn", 1)
LIBRARY = re.compile(r"(?m)^use (\w+)")
MAIN = """\
//! Runs the program that the first argument names.
#![tactic(auto)]

{modules}
use anyhow::{{Result, bail}};
use std::env;

fn main(rt: HostRuntime) -> Result<()> {{
    let mut arguments = env::args(&rt)?;
    let _program = arguments.next();
    let Some(name) = arguments.next() else {{
        bail!("no program is named")
    }};
    match name.as_str() {{
{arms}        _ => bail!("no program has this name"),
    }}
}}
"""


def is_of_one_file(crate: pathlib.Path) -> bool:
    """Returns whether a crate is a program of one file, which takes no argument and defines no words of contracts."""
    files = [*(crate / "src").rglob("*.rt")] if (crate / FILE).is_file() else []
    has_more = any((crate / it).exists() for it in ("args", "specs"))
    return len(files) == 1 and not has_more and BEGIN in files[0].read_text(encoding="utf-8")


def within(text: str) -> str:
    """Returns the file of a program as that of a module."""
    return text.replace(ROOT, "", 1).replace(BEGIN, WITHIN, 1)


def join(to: pathlib.Path, name: str, names: list[str]) -> str:
    """Writes the crate of a program that contains several, with their proofs; returns its line of the list of
    crates."""
    lines = lay.listed((lay.TOP / "crates.txt").read_text(encoding="utf-8"))
    listed = {it: lines[it].split(":")[1].split() for it in names}
    crate = to / "crates" / name
    shutil.rmtree(crate, ignore_errors=True)
    (crate / "src").mkdir(parents=True)
    for it in names:
        program = (lay.TOP / "crates" / it / FILE).read_text(encoding="utf-8")
        if lacking := {*LIBRARY.findall(program)} - {"std", *listed[it]}:
            raise ValueError(f"{it} uses {', '.join(lacking)}, which its line of crates.txt lacks")
        (crate / f"src/{it}.rt").write_text(within(program), encoding="utf-8")
        join_proofs(crate, it)
    modules = "".join(f"mod {it};\n" for it in sorted(names))
    arms = "".join(f'        "{it}" => {it}::main(rt),\n' for it in names)
    (crate / FILE).write_text(MAIN.format(modules=modules, arms=arms), encoding="utf-8")
    return f"{name}: {' '.join(sorted({it for libraries in listed.values() for it in libraries}))}\n"


def join_proofs(crate: pathlib.Path, name: str) -> None:
    """Writes the proofs of a program as those of a module of a crate."""
    source = lay.TOP / "crates" / name / "proofs"
    for file in source.rglob("*.antt"):
        to = crate / "proofs" / name / file.relative_to(source)
        to.parent.mkdir(parents=True, exist_ok=True)
        text = file.read_text(encoding="utf-8")
        to.write_text(text.replace(f"Rattle.{name}.proofs.", f"Rattle.{crate.name}.proofs.{name}."), encoding="utf-8")


def lay_edits(to: pathlib.Path, name: str, is_module: bool) -> None:
    """Copies the wrong bodies of a crate, those of a program as ones of a module."""
    folder = to / "crates" / (NAME if is_module else name) / "must-fail"
    folder.mkdir(exist_ok=True)
    for file in (lay.TOP / "crates" / name / "must-fail").glob("*.edit"):
        text = file.read_text(encoding="utf-8")
        text = text.replace(f"file: {FILE}\n", f"file: src/{name}.rt\n") if is_module else text
        (folder / (f"{name}.{file.name}" if is_module else file.name)).write_text(text, encoding="utf-8")


def laid(to: pathlib.Path, name: str, names: list[str]) -> pathlib.Path:
    """Returns the folder of a program of this name, copied into a folder beside the libraries that those programs
    use."""
    lay.lay(to, names)
    line = join(to, name, names)
    with open(to / "crates.txt", "a", encoding="utf-8") as it:
        it.write(line)
    return to / "crates" / name


def lay_all(to: pathlib.Path, has_edits: bool) -> list[str]:
    """Copies the crates that the gate proves into a folder, the programs of one file as one; returns these."""
    names = lay.lay(to)
    small = [it for it in names if is_of_one_file(lay.TOP / "crates" / it)]
    line = join(to, NAME, small)
    crate = to / "crates" / NAME
    for it in small:
        shutil.rmtree(to / "crates" / it)
    for it in names if has_edits else ():
        lay_edits(to, it, it in small)
    # `rt ci` runs the first of them, on its input if it has one; tests/stored.py runs each.
    (crate / "args").write_text(f"{small[0]}\n", encoding="utf-8")
    for file in (lay.TOP / "crates" / small[0]).glob("std*"):
        shutil.copy(file, crate)
    lines = lay.listed((to / "crates.txt").read_text(encoding="utf-8"))
    left = "".join(f"{it}\n" for name, it in lines.items() if name not in small)
    (to / "crates.txt").write_text(left + line, encoding="utf-8")
    return small


def main() -> None:
    ask = argparse.ArgumentParser(description="Lays the crates that the gate proves, the small programs as one.")
    ask.add_argument("folder", type=pathlib.Path)
    ask.add_argument("--edits", action="store_true", help="with the wrong bodies")
    given = ask.parse_args()
    print(f"one program of {', '.join(lay_all(given.folder, given.edits))}")


if __name__ == "__main__":
    main()
