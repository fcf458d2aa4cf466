//! Times ways to search a list of nodes of u64 keys, each search for a key that is present, in
//! random order: possible look-ups, also those that cannot be written in Rattle.
//! `searches KEYS SIZE ROUNDS` prints a line for each way: its name, a tab, the median of the
//! rounds in nanoseconds. `rustc -O bench/rust/searches.rs` builds it.

use std::arch::asm;
use std::arch::x86_64::{_mm_prefetch, _MM_HINT_T0};
use std::hint::{black_box, select_unpredictable};
use std::time::Instant;

const CALLS: usize = 200_000;

/// The i-th of distinct keys in random order.
fn key(i: u64) -> u64 {
    let i = i.wrapping_add(1).wrapping_mul(0x9e37_79b9_7f4a_7c15);
    let i = (i ^ (i >> 30)).wrapping_mul(0xbf58_476d_1ce4_e5b9);
    let i = (i ^ (i >> 27)).wrapping_mul(0x94d0_49bb_1331_11eb);
    i ^ (i >> 31)
}

/// Bounds of the first item that fails the test, at most a given distance apart, by predicted
/// branches.
#[inline(always)]
fn narrowed<T>(items: &[T], apart: usize, test: impl Fn(&T) -> bool) -> (usize, usize) {
    let (mut low, mut high) = (0, items.len());
    while high - low > apart {
        let middle = low + (high - low) / 2;
        // The comments keep the compiler from selects.
        if test(&items[middle]) {
            unsafe { asm!("# low") }
            low = middle + 1;
        } else {
            unsafe { asm!("# high") }
            high = middle;
        }
    }
    (low, high)
}

#[inline(always)]
fn by_branches<T>(items: &[T], test: impl Fn(&T) -> bool) -> usize {
    narrowed(items, 0, test).0
}

/// Bounds of that item by selects; `fetch` sees both items that the next step may read.
#[inline(always)]
fn by_selects<T>(items: &[T], fetch: impl Fn(&T), test: impl Fn(&T) -> bool) -> usize {
    let (mut low, mut left) = (0, items.len());
    while left > 0 {
        let middle = low + left / 2;
        fetch(&items[low + left / 4]);
        fetch(&items[(middle + left % 2 + left / 4).min(items.len() - 1)]);
        low = select_unpredictable(test(&items[middle]), middle + left % 2, low);
        left /= 2;
    }
    low
}

/// Bounds of that item by branches, and by selects once few enough items are left.
#[inline(always)]
fn by_both<T>(items: &[T], apart: usize, test: impl Fn(&T) -> bool) -> usize {
    let (low, high) = narrowed(items, apart, &test);
    low + by_selects(&items[low..high], |_| (), test)
}

fn fetched<T>(item: &T) {
    unsafe { _mm_prefetch::<_MM_HINT_T0>(item as *const T as *const i8) }
}

/// The keys in nodes that were split when they were full, as single insertions leave them.
fn nodes_of(keys: &[u64], size: usize) -> Vec<Vec<u64>> {
    let mut nodes = vec![Vec::with_capacity(size)];
    for key in keys {
        let mut node = by_branches(&nodes[..nodes.len() - 1], |it: &Vec<u64>| it[it.len() - 1] < *key);
        let mut place = by_branches(&nodes[node], |it| it < key);
        if nodes[node].len() == size {
            let mut upper = Vec::with_capacity(size);
            upper.extend(nodes[node].drain(size / 2..));
            nodes.insert(node + 1, upper);
            if place > size / 2 {
                (node, place) = (node + 1, place - size / 2);
            }
        }
        nodes[node].insert(place, *key);
    }
    nodes
}

/// The ways, each with its name and whether it finds a key.
fn ways(nodes: &[Vec<u64>]) -> Vec<(&'static str, Box<dyn FnMut(u64) -> usize + '_>)> {
    let inner = &nodes[..nodes.len() - 1];
    let last = |it: &Vec<u64>| it[it.len() - 1];
    let node_of = move |key: u64| by_branches(inner, |it| last(it) < key);
    let held = |items: &[u64], place: usize, key: u64| usize::from(items.get(place) == Some(&key));
    let lasts: Vec<&u64> = inner.iter().filter_map(|it| it.last()).collect();
    let copies: Vec<u64> = inner.iter().map(last).collect();
    let rows: Vec<Vec<&u64>> = nodes.iter().map(|it| it.iter().step_by(16).collect()).collect();
    let offsets: Vec<(usize, &Vec<u64>)> = nodes.iter().map(|it| (0, it)).collect();
    let in_node = move |node: usize, key: u64| held(&nodes[node], by_branches(&nodes[node], |it| *it < key), key);
    let mut before = 0;
    vec![
        ("branches", Box::new(move |key| in_node(node_of(key), key))),
        ("selects", Box::new(move |key| {
            let items = &nodes[by_selects(inner, |_| (), |it| last(it) < key)];
            held(items, by_selects(items, |_| (), |it| *it < key), key)
        })),
        ("selects in the node", Box::new(move |key| {
            let items = &nodes[node_of(key)];
            held(items, by_selects(items, |_| (), |it| *it < key), key)
        })),
        ("selects among the last 8 items", Box::new(move |key| {
            let items = &nodes[node_of(key)];
            held(items, by_both(items, 8, |it| *it < key), key)
        })),
        ("selects among the last 16 items", Box::new(move |key| {
            let items = &nodes[node_of(key)];
            held(items, by_both(items, 16, |it| *it < key), key)
        })),
        ("selects, both next items fetched ahead", Box::new(move |key| {
            let items = &nodes[by_selects(inner, |it| fetched(&it[it.len() - 1]), |it| last(it) < key)];
            held(items, by_selects(items, fetched, |it| *it < key), key)
        })),
        ("last items by one pointer", Box::new(move |key| in_node(by_branches(&lasts, |it| **it < key), key))),
        ("copies of the last items", Box::new(move |key| in_node(by_branches(&copies, |it| *it < key), key))),
        ("a row of every 16th address in a node", Box::new(move |key| {
            let node = node_of(key);
            let start = 16 * by_branches(&rows[node][1..], |it| **it < key);
            let items = &nodes[node][start..];
            let run = &items[..items.len().min(17)];
            held(run, by_branches(run, |it| *it < key), key)
        })),
        ("the node of the last call first", Box::new(move |key| {
            let is_there = key <= last(&nodes[before]) && (before == 0 || last(&nodes[before - 1]) < key);
            before = if is_there { before } else { node_of(key) };
            in_node(before, key)
        })),
        ("items from an offset on", Box::new(move |key| {
            let (offset, items) = offsets[by_branches(&offsets[..inner.len()], |it| last(it.1) < key)];
            held(&items[offset..], by_branches(&items[offset..], |it| *it < key), key)
        })),
    ]
}

fn main() {
    let words: Vec<usize> = std::env::args().skip(1).filter_map(|word| word.parse().ok()).collect();
    let [keys, size, rounds] = words[..] else {
        return println!("usage: searches KEYS SIZE ROUNDS");
    };
    let list: Vec<u64> = (0..keys as u64).map(key).collect();
    let asked: Vec<u64> = (0..CALLS as u64).map(|i| key(key(i) % keys as u64)).collect();
    let nodes = nodes_of(&list, size);
    let mut ways = ways(&nodes);
    let mut times = vec![Vec::new(); ways.len()];
    for _ in 0..rounds {
        for (way, times) in ways.iter_mut().zip(&mut times) {
            let start = Instant::now();
            let found: usize = asked.iter().map(|key| way.1(*key)).sum();
            times.push(start.elapsed().as_nanos() as f64 / CALLS as f64);
            assert_eq!(black_box(found), CALLS, "{}", way.0);
        }
    }
    for ((name, _), mut times) in ways.into_iter().zip(times) {
        times.sort_by(f64::total_cmp);
        println!("{name}\t{:.0}", times[rounds / 2]);
    }
}
