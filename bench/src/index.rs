//! Trees by number: an index built, beside plain Rust that walks the list once and keeps every s-th tree; and trees fetched at
//! random, beside plain Rust that walks from the entry on. Plain Rust has read the network before, and asks nothing of an entry.

use std::hint::black_box;

use planner_tests::ffi;
use planner_tests::file::Network;
use planner_tests::rng::Rng;
use planner_tests::walk::Graph;

use crate::{networks, print_ratio, shortest};

/// How many trees are fetched at random.
const FETCHES: usize = 1_000;

/// Writes every s-th tree of the walk, and tells how many there are.
fn plain_index(graph: &Graph, spacing: usize, index: &mut [u16]) -> usize {
    let (mut filled, mut left, mut entries) = (0, 0, 0);
    graph.walk(&mut |tree| {
        if left == 0 {
            index[filled..filled + tree.len()].copy_from_slice(tree);
            filled += tree.len();
            entries += 1;
            left = spacing;
        }
        left -= 1;
    });
    entries
}

/// Tree t, by so many moves from its entry on.
fn plain_fetch(graph: &Graph, spacing: usize, index: &[u16], tree: usize, buffer: &mut [u16]) {
    let entry = tree / spacing * graph.width;
    let rows = &index[entry..entry + graph.width];
    let mut left = tree % spacing;
    if left == 0 {
        return buffer.copy_from_slice(rows);
    }
    graph.walk_behind(rows, &mut |tree| {
        left -= 1;
        if left == 0 {
            buffer.copy_from_slice(tree);
        }
        left > 0
    });
}

fn list_length(graph: &Graph) -> usize {
    let mut trees = 0;
    graph.walk(&mut |_| trees += 1);
    trees
}

/// An index of the network, by the library.
fn built(network: &Network, spacing: usize, entries: usize) -> Vec<u16> {
    let mut index = vec![0; entries * network.width()];
    let mut answer = [0];
    let code = ffi::index_build(&network.encode(), spacing as u32, &mut index, &mut answer);
    assert_eq!((code, answer[0] as usize), (0, entries));
    index
}

fn compare_builds(name: &str, network: &Network, spacing: usize) {
    let file = network.encode();
    let graph = Graph::new(network);
    let trees = list_length(&graph);
    let entries = trees.div_ceil(spacing);
    let mut ours = built(network, spacing, entries);
    let mut theirs = vec![0; ours.len()];
    assert_eq!(plain_index(&graph, spacing, &mut theirs), entries);
    assert!(ours == theirs, "{name}: not the same index");
    let times = shortest(
        || {
            let code = ffi::index_build(&file, spacing as u32, &mut ours, &mut [0]);
            assert_eq!(code, 0);
            black_box(&ours);
        },
        || {
            black_box(plain_index(&graph, spacing, &mut theirs));
        },
    );
    let name = format!("{name}, spacing {spacing}");
    print_ratio(&name, trees, times[0], times[1]);
}

fn compare_fetches(name: &str, network: &Network, spacing: usize) {
    let file = network.encode();
    let graph = Graph::new(network);
    let trees = list_length(&graph);
    let index = built(network, spacing, trees.div_ceil(spacing));
    let rng = &mut Rng::new(spacing as u64);
    let numbers: Vec<usize> = (0..FETCHES).map(|_| rng.between(0, trees - 1)).collect();
    let width = network.width();
    let mut buffer = vec![0; width];
    let mut other = vec![0; width];
    let fetch = |tree: usize, buffer: &mut [u16]| {
        let s = spacing as u32;
        let code = ffi::index_fetch(&file, s, &index, tree as u64, buffer, &mut [0]);
        assert_eq!(code, 0);
    };
    for &tree in &numbers {
        fetch(tree, &mut buffer);
        plain_fetch(&graph, spacing, &index, tree, &mut other);
        assert_eq!(buffer, other, "{name}: not the same tree {tree}");
    }
    let times = shortest(
        || {
            for &tree in &numbers {
                fetch(tree, &mut buffer);
                black_box(&buffer);
            }
        },
        || {
            for &tree in &numbers {
                plain_fetch(&graph, spacing, &index, tree, &mut other);
                black_box(&other);
            }
        },
    );
    let name = format!("{name}, spacing {spacing}");
    print_ratio(&name, FETCHES, times[0], times[1]);
}

pub fn tables() {
    let all = [
        ("complete, 8 nodes", networks::complete(8, &[0])),
        ("grid of 4 by 4", networks::grid(4, 4, &[0])),
    ];
    println!("Index: built, nanoseconds a tree of the list");
    println!(
        "{:36} {:>9} {:>12} {:>12} {:>8}",
        "", "trees", "library", "plain Rust", "ratio"
    );
    for (name, network) in &all {
        for spacing in [1_000, 100, 10, 1] {
            compare_builds(name, network, spacing);
        }
    }
    println!();
    println!("Index: trees fetched at random, nanoseconds a fetch");
    println!(
        "{:36} {:>9} {:>12} {:>12} {:>8}",
        "", "fetches", "library", "plain Rust", "ratio"
    );
    for (name, network) in &all {
        for spacing in [1_000, 100] {
            compare_fetches(name, network, spacing);
        }
    }
}
