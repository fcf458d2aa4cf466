#!/usr/bin/env python3
"""Writes what C owns of each collection, and its proofs, from those of the set.

    scripts/write_handles.py [--check]      `--check` writes nothing, and fails if something is out of date

Each collection of `crates/indexset_ffi` has a slot, a handle and an owner. Those of the set (`src/set_slot.rt`,
`set_handle.rt`, `set_owner.rt`, and `proofs/set_slot`, `proofs/set_owner`) are written by hand; the others differ from
them in names only, and are not edited.
"""

from __future__ import annotations

import argparse
import dataclasses
import pathlib
import re
import sys

CRATE = pathlib.Path(__file__).resolve().parent.parent / "crates/indexset_ffi"


@dataclasses.dataclass(frozen=True)
class Collection:
    """A collection of C, and the words that its files have in place of the set's."""

    stem: str  # of its files
    noun: str
    kind: str  # the noun, as its first mention has it
    type_name: str
    types: list[str]  # what its slot imports for the type
    aliases: str = ""  # types and constants that its slot declares
    name: str = ""  # of a variable
    specs: str = "Slots"  # the file of its row
    boxes: str = "Boxes"  # the file of its laws

    def title(self) -> str:
        """Returns the prefix of its types."""
        return "".join(it.capitalize() for it in self.stem.split("_"))

    def imports(self) -> dict[str, str]:
        """Returns the imports of its slot and of its handle, by those of the set."""
        slot = f"crate::{self.stem}_slot::"
        names = ", ".join(sorted([self.type_name, f"{self.title()}Slot"]))
        types = [f"{slot}{{{names}}}"] if self.aliases else [f"{slot}{self.title()}Slot", *self.types]
        lines = {"use indexset_set::BTreeSet;\n": self.types}
        lines["use crate::set_slot::SetSlot;\nuse indexset_set::BTreeSet;\n"] = sorted(types)
        return {before: "".join(f"use {it};\n" for it in after) for before, after in reversed(lines.items())}

    def words(self) -> dict[str, str]:
        """Returns the texts of this collection's files by those of the set's files, longer ones first."""
        name = self.name or self.stem
        return {
            **self.imports(),
            "/// A set on the heap": f"{self.aliases}/// {self.kind[0].upper()}{self.kind[1:]} on the heap",
            **{f"{it} of a set": f"{it} of {self.kind}" for it in ("The slot", "The handle")},
            "C has: a set": f"C has: {self.kind}",
            "specs.Slots.": f"specs.{self.specs}.",
            "proofs.Boxes.{set_": f"proofs.{self.boxes}.{{set_",
            "BTreeSet<u64>": self.type_name,
            "holds_set": f"holds_{self.stem}",
            **{f"Set{it}": f"{self.title()}{it}" for it in ("Slot", "Handle", "Owner")},
            "(set: ": f"({name}: ",
            ", set: ": f", {name}: ",
            "(set)": f"({name})",
            "set.value": f"{name}.value",
        }

    def written(self, text: str) -> str:
        """Returns a file of this collection for a file of the set."""
        for before, after in self.words().items():
            text = text.replace(before, after)
        text = re.sub(r"\bset_(?=slot|handle|owner|row|box|laws)", f"{self.stem}_", text)
        return re.sub(r"\bset\b(?!:)", self.noun, text)

    def renamed(self, path: str) -> str:
        """Returns the path of a file of this collection for a path of the set's."""
        path = path.replace("set_", f"{self.stem}_")
        for part in ("Slot", "Handle", "Owner"):
            path = path.replace(f"Set{part}", f"{self.title()}{part}")
        return path


MULTI = """/// A multimap of numbers.
pub type MultiMap = BTreeMultiMap<u64, u64, Vec<MultiPair<u64, u64>>>;

/// An iterator over some of its pairs.
pub type MultiRange<'a> = Range<'a, u64, u64, Vec<MultiPair<u64, u64>>>;

"""
LOG = """/// A map of numbers that returns its changes.
pub type LoggedMap = BTreeMap<u64, u64, Vec<Pair<u64, u64>>>;

/// An iterator over some of its pairs.
pub type LoggedRange<'a> = Range<'a, u64, u64, Vec<Pair<u64, u64>>>;

/// An iterator over its nodes.
pub type LoggedNodes<'a> = Nodes<'a, Vec<Pair<u64, u64>>>;

"""
TEXT = """/// A map from byte strings to numbers.
pub type TextMap = BTreeMap<Text, u64>;

/// The maximum number of pairs in a node of such a map.
///
/// It is a quarter of the default, because an insertion or a removal moves half of the pairs of a
/// node, of 32 bytes each.
pub const TEXT_NODE_SIZE: usize = 256;

/// An iterator over some of its pairs.
pub type TextRange<'a> = RangeMap<'a, Text, u64>;

"""
REPLICA = """/// A replica of a map of numbers.
pub type MapReplica = Replica<Pair<u64, u64>>;

/// An iterator over some of its pairs.
pub type ReplicaRange<'a> = Iter<'a, Pair<u64, u64>>;

"""
PAIR = "indexset_core::pair::Pair"
MAP_OF_TEXT = "a map from byte strings"
COLLECTIONS = [
    Collection("map", "map", "a map", "BTreeMap<u64, u64>", ["indexset_map::BTreeMap"]),
    Collection(
        "text",
        "map",
        MAP_OF_TEXT,
        "TextMap",
        ["indexset_core::text::Text", "indexset_map::{BTreeMap, RangeMap}"],
        TEXT,
        "map",
        "Text",
        "TextBoxes",
    ),
    Collection(
        "multi",
        "multimap",
        "a multimap",
        "MultiMap",
        [
            "indexset_core::multipair::MultiPair",
            "indexset_multi::multimap::BTreeMultiMap",
            "indexset_multi::multimap::range::Range",
        ],
        MULTI,
    ),
    Collection(
        "log",
        "logged map",
        "a logged map",
        "LoggedMap",
        [PAIR, "indexset_log::map::BTreeMap", "indexset_log::map::range::Range", "indexset_log::set::nodes::Nodes"],
        LOG,
    ),
    Collection(
        "replica",
        "replica",
        "a replica",
        "MapReplica",
        [PAIR, "indexset_replica::Replica", "indexset_replica::iter::Iter"],
        REPLICA,
    ),
    Collection(
        "text_log", "map", "a logged map from byte strings", "TextLog", ["crate::text_log::TextLog"], name="map"
    ),
]


def main() -> int:
    ask = argparse.ArgumentParser(description="Writes what C owns of each collection from the set's.")
    ask.add_argument("--check", action="store_true", help="write nothing, and fail where something is out of date")
    given = ask.parse_args()
    parts = [f"src/set_{it}.rt" for it in ("slot", "handle", "owner")]
    parts += [f"proofs/set_{it}/**/*" for it in ("slot", "owner")]
    files = [file for part in parts for file in CRATE.glob(part) if file.is_file()]
    stale = []
    for file in sorted(files):
        for collection in COLLECTIONS:
            to = CRATE / collection.renamed(str(file.relative_to(CRATE)))
            text = collection.written(file.read_text(encoding="utf-8"))
            if not to.exists() or to.read_text(encoding="utf-8") != text:
                stale.append((to, text))
    if given.check and stale:
        names = ", ".join(str(it.relative_to(CRATE)) for it, _ in stale)
        sys.exit(f"stale: {names}; run scripts/write_handles.py")
    for to, text in stale:
        to.parent.mkdir(parents=True, exist_ok=True)
        to.write_text(text, encoding="utf-8")
    return 0


if __name__ == "__main__":
    sys.exit(main())
