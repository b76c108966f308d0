//! Costs, dominance and the front of document 01.

use std::collections::BTreeMap;

use crate::file::{Network, Row};

pub type Vector = Vec<u32>;

/// A vector of the front, and the first tree of the list that has it.
pub type Entry = (Vector, Vec<u16>);

/// The vector of a spanning tree.
pub fn vector(network: &Network, tree: &[u16]) -> Vector {
    let rows: Vec<&Row> = tree.iter().map(|&r| &network.rows[r as usize]).collect();
    let cost = |(criterion, &kind): (usize, &u8)| match kind {
        0 => rows.iter().map(|row| row.costs[criterion]).sum(),
        1 => rows.iter().map(|row| row.costs[criterion]).max().unwrap(),
        2 => closing(&rows, criterion),
        _ => panic!("a kind of {kind}"),
    };
    network.kinds.iter().enumerate().map(cost).collect()
}

/// Each named street closed once, for the largest days of its rows; the streets added, and the days of the rows of street 0 with them.
fn closing(rows: &[&Row], criterion: usize) -> u32 {
    let mut streets: BTreeMap<u16, u32> = BTreeMap::new();
    let mut off_the_road = 0;
    for row in rows {
        match row.street {
            0 => off_the_road += row.costs[criterion],
            street => {
                let days = streets.entry(street).or_default();
                *days = row.costs[criterion].max(*days);
            }
        }
    }
    streets.values().sum::<u32>() + off_the_road
}

/// Whether no component of v is larger and at least one is smaller.
pub fn dominates(v: &[u32], w: &[u32]) -> bool {
    let pairs = || v.iter().zip(w);
    pairs().all(|(a, b)| a <= b) && pairs().any(|(a, b)| a < b)
}

/// The vectors that none of them dominates, each once, ascending by the first component that differs.
pub fn front(mut vectors: Vec<Vector>) -> Vec<Vector> {
    vectors.sort();
    vectors.dedup();
    let undominated = |v: &&Vector| !vectors.iter().any(|w| dominates(w, v));
    vectors.iter().filter(undominated).cloned().collect()
}
