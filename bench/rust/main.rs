//! Times the calls of a set and a map of u64 in Rust: of std, or of the crate `indexset` with its
//! feature. Each row is a line: its name, a tab, nanoseconds per operation.
//!
//! `rows KEYS` prints the rows; `hold KEYS COPIES ascending|mixed` makes that many sets, prints a
//! line, and waits for one, so that its memory can be read; `calls KEYS ROW COUNT` prepares 100,000
//! calls and makes the first COUNT of them, so that the cost of one is the difference between two
//! runs.

#[cfg(feature = "of_the_crate")]
use indexset::{BTreeMap, BTreeSet};
#[cfg(not(feature = "of_the_crate"))]
use std::collections::{BTreeMap, BTreeSet};

use std::hint::black_box;
use std::io::BufRead;
use std::time::Instant;

/// The i-th of distinct keys in random order.
fn key(i: u64) -> u64 {
    let i = i.wrapping_add(1).wrapping_mul(0x9e37_79b9_7f4a_7c15);
    let i = (i ^ (i >> 30)).wrapping_mul(0xbf58_476d_1ce4_e5b9);
    let i = (i ^ (i >> 27)).wrapping_mul(0x94d0_49bb_1331_11eb);
    i ^ (i >> 31)
}

fn row(name: &str, since: Instant, operations: u64) {
    let nanoseconds = since.elapsed().as_nanos() as f64;
    println!("{name}\t{:.1}", nanoseconds / operations.max(1) as f64);
}

fn every_second(first: u64, keys: u64) -> BTreeSet<u64> {
    (0..keys / 2).map(|i| 2 * i + first).collect()
}

#[inline(never)]
fn insert_all(set: &mut BTreeSet<u64>, keys: impl Iterator<Item = u64>) -> usize {
    for key in keys {
        set.insert(key);
    }
    set.len()
}

#[inline(never)]
fn insert_pairs(map: &mut BTreeMap<u64, u64>, keys: impl Iterator<Item = u64>) {
    for key in keys {
        map.insert(key, key);
    }
}

#[inline(never)]
fn contained(set: &BTreeSet<u64>, keys: &[u64]) -> usize {
    keys.iter().filter(|key| set.contains(key)).count()
}

#[cfg(feature = "of_the_crate")]
#[inline(never)]
fn by_position(set: &BTreeSet<u64>, positions: &[u64]) -> u64 {
    positions.iter().filter_map(|at| set.get_index(*at as usize)).fold(0u64, |sum, key| sum.wrapping_add(*key))
}

#[cfg(feature = "of_the_crate")]
#[inline(never)]
fn ranks(set: &BTreeSet<u64>, keys: &[u64]) -> usize {
    keys.iter().fold(0usize, |sum, key| sum.wrapping_add(set.rank(key)))
}

#[inline(never)]
fn looked_up(map: &BTreeMap<u64, u64>, keys: &[u64]) -> u64 {
    keys.iter().filter_map(|key| map.get(key)).fold(0u64, |sum, value| sum.wrapping_add(*value))
}

/// Adds one to each value, key by key.
#[inline(never)]
fn written(map: &mut BTreeMap<u64, u64>, keys: &[u64]) {
    for key in keys {
        if let Some(value) = map.get_mut(key) {
            *value = value.wrapping_add(1);
        }
    }
}

fn measure_look_ups(set: &BTreeSet<u64>, sought: &[u64], absent: &[u64], keys: u64) {
    let start = Instant::now();
    let found = contained(set, sought);
    row("contains", start, keys);
    let start = Instant::now();
    let missed = contained(set, absent);
    row("contains, absent", start, keys);
    black_box((found, missed));
}

#[cfg(feature = "of_the_crate")]
fn measure_positions(set: &BTreeSet<u64>, sought: &[u64], positions: &[u64], keys: u64) {
    let start = Instant::now();
    let sum = by_position(set, positions);
    row("element at a position", start, keys);
    let start = Instant::now();
    let below = ranks(set, sought);
    row("rank", start, keys);
    black_box((sum, below));
}

#[cfg(not(feature = "of_the_crate"))]
fn measure_positions(_set: &BTreeSet<u64>, _sought: &[u64], _positions: &[u64], _keys: u64) {}

#[inline(never)]
fn walked(set: &BTreeSet<u64>) -> u64 {
    set.iter().fold(0u64, |sum, key| sum.wrapping_add(*key))
}

#[inline(never)]
fn both_ends(set: &BTreeSet<u64>) -> u64 {
    let mut sum = 0u64;
    let mut walk = set.iter();
    while let Some(first) = walk.next() {
        let last = walk.next_back().unwrap_or(&0);
        sum = sum.wrapping_add(*first).wrapping_add(*last);
    }
    sum
}

#[inline(never)]
fn ranges(set: &BTreeSet<u64>, keys: u64, times: u64) -> u64 {
    let width = u64::MAX / keys.max(1) * 100.min(keys.max(1));
    let mut sum = 0u64;
    for i in 0..times {
        let start = key(i);
        for element in set.range(start..=start.saturating_add(width)) {
            sum = sum.wrapping_add(*element);
        }
    }
    sum
}

fn measure_walks(set: &mut BTreeSet<u64>, keys: u64) {
    let start = Instant::now();
    black_box(walked(set));
    row("iterate", start, keys);
    let start = Instant::now();
    black_box(both_ends(set));
    row("iterate from both ends", start, keys);
    let times = keys.min(100_000);
    let start = Instant::now();
    black_box(ranges(set, keys, times));
    row("range of 100", start, times);
    let start = Instant::now();
    let mut upper = set.split_off(&(u64::MAX / 2));
    row("split in the middle", start, 1);
    let start = Instant::now();
    black_box(set.union(&upper).fold(0u64, |sum, key| sum.wrapping_add(*key)));
    row("union of two halves", start, keys);
    let start = Instant::now();
    set.append(&mut upper);
    row("append, all above", start, keys / 2);
}

fn measure_set(mixed: &[u64], sought: &[u64], absent: &[u64], positions: &[u64], keys: u64) {
    let start = Instant::now();
    let mut set = BTreeSet::new();
    insert_all(&mut set, mixed.iter().copied());
    row("insert", start, keys);
    measure_look_ups(&set, sought, absent, keys);
    measure_positions(&set, sought, positions, keys);
    measure_walks(&mut set, keys);
    let start = Instant::now();
    let removed = sought.iter().filter(|key| set.remove(*key)).count();
    row("remove", start, keys);
    black_box(removed);
}

fn measure_whole(mixed: &[u64], keys: u64) {
    let start = Instant::now();
    let mut set = BTreeSet::new();
    insert_all(&mut set, 0..keys);
    row("insert, ascending", start, keys);
    let start = Instant::now();
    let mut copy = set.clone();
    row("clone", start, keys);
    let start = Instant::now();
    black_box(set == copy);
    row("equality", start, keys);
    let start = Instant::now();
    while let Some(last) = set.pop_last() {
        black_box(last);
    }
    row("pop_last", start, keys);
    let start = Instant::now();
    while let Some(first) = copy.pop_first() {
        black_box(first);
    }
    row("pop_first", start, keys);
    measure_kept(keys);
    let (mut even, mut odd) = (every_second(0, keys), every_second(1, keys));
    let start = Instant::now();
    even.append(&mut odd);
    row("append, every second", start, keys / 2);
    black_box(even.len());
    let values: Vec<u64> = (0..keys).collect();
    let start = Instant::now();
    let made: BTreeSet<u64> = values.into_iter().collect();
    row("from, ascending", start, keys);
    black_box(made.len());
    let values = mixed.to_vec();
    let start = Instant::now();
    let made: BTreeSet<u64> = values.into_iter().collect();
    row("from", start, keys);
    black_box(made.len());
}

/// Reads the first elements, a number of times.
#[inline(never)]
fn firsts(sets: &[BTreeSet<u64>], count: u64) -> u64 {
    let mut sum = 0u64;
    for _ in 0..count {
        for set in black_box(sets) {
            sum = sum.wrapping_add(set.first().copied().unwrap_or(0));
        }
    }
    sum
}

/// Reads the first elements of some sets, and of a set from which every second element is removed.
fn measure_kept(keys: u64) {
    let mut set: BTreeSet<u64> = BTreeSet::new();
    insert_all(&mut set, 0..keys);
    let copies = (16_000 / keys.max(1)).max(1);
    let sets = vec![set.clone(); copies as usize];
    let start = Instant::now();
    black_box(firsts(&sets, 10_000));
    row("first", start, copies * 10_000);
    let start = Instant::now();
    set.retain(|key| key % 2 == 0);
    row("retain, every second", start, keys);
    black_box(set.len());
}

fn measure_map(mixed: &[u64], sought: &[u64], keys: u64) {
    let start = Instant::now();
    let mut map = BTreeMap::new();
    insert_pairs(&mut map, mixed.iter().copied());
    row("map, insert", start, keys);
    let start = Instant::now();
    black_box(looked_up(&map, sought));
    row("map, get", start, keys);
    let start = Instant::now();
    written(&mut map, sought);
    row("map, get_mut", start, keys);
    let start = Instant::now();
    black_box(walked_pairs(&map));
    row("map, iterate", start, keys);
}

/// The keys in decimal.
fn texts_of(keys: impl Iterator<Item = u64>) -> Vec<String> {
    keys.map(|key| key.to_string()).collect()
}

#[inline(never)]
fn walked_pairs(map: &BTreeMap<u64, u64>) -> u64 {
    map.iter().fold(0u64, |sum, (key, value)| sum.wrapping_add(*key).wrapping_add(*value))
}

#[inline(never)]
fn insert_texts(map: &mut BTreeMap<String, u64>, texts: Vec<String>) {
    for text in texts {
        map.insert(text, 1);
    }
}

#[inline(never)]
fn looked_up_texts(map: &BTreeMap<String, u64>, texts: &[String]) -> u64 {
    texts.iter().filter_map(|text| map.get(text)).sum()
}

#[inline(never)]
fn remove_texts(map: &mut BTreeMap<String, u64>, texts: &[String]) -> usize {
    texts.iter().filter(|text| map.remove(*text).is_some()).count()
}

fn measure_texts(mixed: &[u64], sought: &[u64], keys: u64) {
    let (texts, asked) = (texts_of(mixed.iter().copied()), texts_of(sought.iter().copied()));
    let start = Instant::now();
    let mut map = BTreeMap::new();
    insert_texts(&mut map, texts);
    row("texts, insert", start, keys);
    let start = Instant::now();
    black_box(looked_up_texts(&map, &asked));
    row("texts, get", start, keys);
    let start = Instant::now();
    black_box(remove_texts(&mut map, &asked));
    row("texts, remove", start, keys);
}

fn measure(keys: u64) {
    let mixed: Vec<u64> = (0..keys).map(key).collect();
    let sought: Vec<u64> = (0..keys).map(|i| key(i * 7919 % keys.max(1))).collect();
    let absent: Vec<u64> = (keys..2 * keys).map(key).collect();
    let positions: Vec<u64> = (0..keys).map(|i| key(i) % keys.max(1)).collect();
    measure_set(&mixed, &sought, &absent, &positions, keys);
    measure_whole(&mixed, keys);
    measure_map(&mixed, &sought, keys);
    measure_texts(&mixed, &sought, keys);
}

fn hold(keys: u64, copies: u64, is_mixed: bool) {
    let one = || -> BTreeSet<u64> {
        let mut set = BTreeSet::new();
        for i in 0..keys {
            set.insert(if is_mixed { key(i) } else { i });
        }
        set
    };
    let sets: Vec<BTreeSet<u64>> = (0..copies).map(|_| one()).collect();
    println!("held");
    let mut line = String::new();
    let _ = std::io::stdin().lock().read_line(&mut line);
    black_box(sets.len());
}

/// The number of prepared calls.
const PREPARED: u64 = 100_000;

/// Returns the arguments of a row.
fn prepared(name: &str, keys: u64, count: u64) -> Vec<u64> {
    let mut list: Vec<u64> = (0..PREPARED)
        .map(|i| match name {
            "contains, absent" | "insert" | "map, insert" | "texts, insert" => key(keys + i),
            "element at a position" => key(i) % keys.max(1),
            "remove" | "texts, remove" => key(i * 7919 % keys.max(1)),
            _ => key(key(i) % keys.max(1)),
        })
        .collect();
    list.truncate(count as usize);
    list
}

#[cfg(feature = "of_the_crate")]
fn call_by_position(name: &str, set: &BTreeSet<u64>, asked: &[u64]) -> bool {
    match name {
        "element at a position" => black_box(by_position(set, asked)),
        "rank" => black_box(ranks(set, asked) as u64),
        _ => return false,
    };
    true
}

#[cfg(not(feature = "of_the_crate"))]
fn call_by_position(_name: &str, _set: &BTreeSet<u64>, _asked: &[u64]) -> bool {
    false
}

fn call_set(name: &str, keys: u64, asked: &[u64]) -> bool {
    let mut set: BTreeSet<u64> = BTreeSet::new();
    insert_all(&mut set, (0..keys).map(key));
    match name {
        "contains" | "contains, absent" => black_box(contained(&set, asked)),
        "range of 100" => black_box(ranges(&set, keys, asked.len() as u64) as usize),
        "iterate" => black_box(asked.iter().fold(0u64, |sum, _| sum.wrapping_add(walked(black_box(&set)))) as usize),
        "iterate from both ends" => {
            black_box(asked.iter().fold(0u64, |sum, _| sum.wrapping_add(both_ends(black_box(&set)))) as usize)
        }
        "split in the middle" if asked.is_empty() => set.len(),
        "split in the middle" => black_box(set.split_off(&(u64::MAX / 2))).len(),
        "insert" => insert_all(&mut set, asked.iter().copied()),
        "remove" => black_box(asked.iter().filter(|key| set.remove(*key)).count()),
        _ => return call_by_position(name, &set, asked),
    };
    true
}

/// Makes the calls of a row of a set of ascending keys.
fn call_whole(name: &str, keys: u64, count: u64) -> bool {
    let mut set: BTreeSet<u64> = BTreeSet::new();
    insert_all(&mut set, 0..keys);
    let copy = set.clone();
    let mut above: BTreeSet<u64> = (keys..2 * keys).collect();
    let mixed: Vec<u64> = (0..keys).map(key).collect();
    for _ in 0..count {
        match name {
            "append, all above" => set.append(&mut above),
            "retain, every second" => set.retain(|key| key % 2 == 0),
            "from, ascending" => drop(black_box((0..keys).collect::<Vec<u64>>().into_iter().collect::<BTreeSet<u64>>())),
            "from" => drop(black_box(mixed.iter().copied().collect::<BTreeSet<u64>>())),
            "clone" => drop(black_box(set.clone())),
            "equality" => drop(black_box(set == copy)),
            "pop_last" => drop(black_box(set.pop_last())),
            "pop_first" => drop(black_box(set.pop_first())),
            _ => return false,
        }
    }
    black_box(set.len());
    true
}

/// Reads the first elements of clones of a set of ascending keys.
fn call_first(keys: u64, count: u64) -> bool {
    let set: BTreeSet<u64> = (0..keys).collect();
    black_box(firsts(&vec![set; 16], count / 16));
    true
}

fn call_map(name: &str, keys: u64, asked: &[u64]) -> bool {
    let mut map = BTreeMap::new();
    insert_pairs(&mut map, (0..keys).map(key));
    match name {
        "map, insert" => insert_pairs(&mut map, asked.iter().copied()),
        "map, get" => {
            black_box(looked_up(&map, asked));
        }
        "map, get_mut" => written(&mut map, asked),
        "map, iterate" => {
            black_box(asked.iter().fold(0u64, |sum, _| sum.wrapping_add(walked_pairs(black_box(&map)))));
        }
        _ => return false,
    }
    black_box(map.len());
    true
}

fn call_texts(name: &str, keys: u64, asked: &[u64]) -> bool {
    let mut map = BTreeMap::new();
    insert_texts(&mut map, texts_of((0..keys).map(key)));
    let texts = texts_of(asked.iter().copied());
    match name {
        "texts, insert" => insert_texts(&mut map, texts),
        "texts, get" => {
            black_box(looked_up_texts(&map, &texts));
        }
        "texts, remove" => {
            black_box(remove_texts(&mut map, &texts));
        }
        _ => return false,
    }
    black_box(map.len());
    true
}

/// Makes the calls of a row. Returns whether there is such a row.
fn call(name: &str, keys: u64, count: u64) -> bool {
    let asked = prepared(name, keys, count);
    match name {
        "first" => call_first(keys, count),
        "append, all above" | "from" | "from, ascending" | "clone" | "equality" | "pop_last" | "pop_first" | "retain, every second" => {
            call_whole(name, keys, count)
        }
        _ if name.starts_with("map, ") => call_map(name, keys, &asked),
        _ if name.starts_with("texts, ") => call_texts(name, keys, &asked),
        _ => call_set(name, keys, &asked),
    }
}

fn main() {
    let words: Vec<String> = std::env::args().collect();
    let number = |at: usize| words.get(at).and_then(|word| word.parse().ok()).unwrap_or(0);
    match words.get(1).map(String::as_str) {
        Some("rows") => measure(number(2)),
        Some("hold") => hold(number(2), number(3), words.get(4).is_some_and(|word| word == "mixed")),
        Some("calls") => {
            let name = words.get(3).map_or("", String::as_str);
            println!("{}", if call(name, number(2), number(4)) { "called" } else { "no such row" });
        }
        _ => println!("usage: rows KEYS | hold KEYS COPIES ascending|mixed | calls KEYS ROW COUNT"),
    }
}
