//! The front in plain Rust: each tree of the walk with its vector, entered in a sorted table.

use crate::costs::Entry;
use crate::file::Network;
use crate::walk::Graph;

/// The front: its vectors ascending, each with the first tree that has it.
pub fn front(network: &Network) -> Vec<Entry> {
    let graph = Graph::new(network);
    // vectors and trees with places to spare, so that the walk allocates nothing
    let mut table: Vec<([u32; 4], [u16; 31])> = Vec::new();
    graph.walk(&mut |tree| {
        let vector = vector(network, tree);
        if table.iter().any(|(known, _)| no_larger(known, &vector)) {
            return;
        }
        table.retain(|(known, _)| !no_larger(&vector, known));
        let at = table.partition_point(|(known, _)| *known < vector);
        let mut rows = [0; 31];
        rows[..tree.len()].copy_from_slice(tree);
        table.insert(at, (vector, rows));
    });
    let entry = |(vector, rows): &([u32; 4], [u16; 31])| {
        let (k, width) = (network.k(), network.width());
        (vector[..k].to_vec(), rows[..width].to_vec())
    };
    table.iter().map(entry).collect()
}

fn vector(network: &Network, tree: &[u16]) -> [u32; 4] {
    let mut vector = [0; 4];
    for (criterion, &kind) in network.kinds.iter().enumerate() {
        let costs = tree
            .iter()
            .map(|&row| network.rows[row as usize].costs[criterion]);
        vector[criterion] = match kind {
            1 => costs.fold(0, u32::max),
            2 => closing(network, tree, criterion),
            _ => costs.sum(),
        };
    }
    vector
}

/// The largest days of each named street, added, and the days of the rows off the road.
fn closing(network: &Network, tree: &[u16], criterion: usize) -> u32 {
    let mut streets = [(0u16, 0u32); 31];
    let mut named = 0;
    let mut off_the_road = 0;
    for &row in tree {
        let row = &network.rows[row as usize];
        let days = row.costs[criterion];
        if row.street == 0 {
            off_the_road += days;
        } else if let Some((_, most)) = streets[..named]
            .iter_mut()
            .find(|(street, _)| *street == row.street)
        {
            *most = days.max(*most);
        } else {
            streets[named] = (row.street, days);
            named += 1;
        }
    }
    off_the_road + streets[..named].iter().map(|(_, days)| days).sum::<u32>()
}

fn no_larger(v: &[u32; 4], w: &[u32; 4]) -> bool {
    v.iter().zip(w).all(|(a, b)| a <= b)
}
