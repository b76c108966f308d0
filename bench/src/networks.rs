//! The networks that are measured. Node 1 is the plant; costs and streets come from a fixed seed.

use planner_tests::draw;
use planner_tests::file::{Network, Row, BARRED, MUST, OPEN};
use planner_tests::rng::Rng;
use planner_tests::{shapes, trees};

/// The rows of a network, with costs of 0 to 99 for each kind and four streets.
fn costed(network: Network, kinds: &[u8]) -> Network {
    let rng = &mut Rng::new(network.n as u64);
    let row = |row: &Row| {
        let street = rng.between(0, 4) as u16;
        let costs = kinds.iter().map(|_| rng.between(0, 99) as u32);
        Row::new(row.ends, street, costs.collect())
    };
    let rows = network.rows.iter().map(row).collect();
    Network::new(network.n, kinds.to_vec(), rows)
}

/// A row between each two nodes.
pub fn complete(n: u8, kinds: &[u8]) -> Network {
    costed(shapes::complete(n), kinds)
}

/// Rows between any two nodes, seed by seed, of those that join all the nodes.
pub fn any_rows(n: u8, m: usize) -> impl Iterator<Item = Network> {
    (0..)
        .map(move |seed| Network::random(&mut Rng::new(seed), n as usize, m, 1))
        .filter(move |network| trees::reached(network).len() == n as usize)
}

/// The first of these.
pub fn random(n: u8, m: usize, kinds: &[u8]) -> Network {
    costed(any_rows(n, m).next().unwrap(), kinds)
}

/// A grid, its nodes numbered row by row.
pub fn grid(rows: u8, columns: u8, kinds: &[u8]) -> Network {
    costed(shapes::grid(rows, columns), kinds)
}

/// Two lines with a rung between each two nodes of theirs: a grid of two rows.
pub fn ladder(n: u8, kinds: &[u8]) -> Network {
    costed(shapes::ladder(n), kinds)
}

/// All nodes joined to the last one, the plant too: it has one spanning tree.
pub fn star(n: u8) -> Network {
    costed(shapes::joined(n, |_, b| b == n), &[0])
}

/// A line from the plant on, each step of it by so many rows beside each other.
pub fn line(n: u8, beside: usize) -> Network {
    costed(shapes::line(&vec![beside; n as usize - 1]), &[0])
}

/// Streets: each node joined to one of the three before it, and rows between nodes that are at most four apart; no two rows beside each other.
pub fn streets(n: u8, m: usize) -> Network {
    let rng = &mut Rng::new(77);
    let mut pairs: Vec<[u8; 2]> = (2..=n)
        .map(|b| {
            [
                rng.between((b as usize).saturating_sub(3).max(1), b as usize - 1) as u8,
                b,
            ]
        })
        .collect();
    while pairs.len() < m {
        let a = rng.between(1, n as usize) as u8;
        let b = a + rng.between(1, 4) as u8;
        if b <= n && !pairs.contains(&[a, b]) {
            pairs.push([a, b]);
        }
    }
    costed(shapes::with_rows(n, &pairs), &[0])
}

/// The same network with so many must rows, all of one spanning tree, and so many barred rows beside that tree.
pub fn with_states(network: Network, musts: usize, barred: usize) -> Network {
    let tree = draw::forest(&mut Rng::new(1), &network);
    let beside = (0..network.m() as u16).filter(|row| !tree.contains(row));
    let mut states = vec![OPEN; network.m()];
    for row in beside.take(barred) {
        states[row as usize] = BARRED;
    }
    for &row in &tree[..musts] {
        states[row as usize] = MUST;
    }
    network.with_states(&states)
}

/// A line, each step of it by so many rows beside each other, of which the first is barred.
pub fn line_with_barred(n: u8, beside: usize) -> Network {
    let network = line(n, beside);
    let states: Vec<u8> = (0..network.m())
        .map(|row| if row % beside == 0 { BARRED } else { OPEN })
        .collect();
    network.with_states(&states)
}

/// A must path through all the nodes, from the last to the plant, behind as many other rows as a file may have.
pub fn must_path(n: u8) -> Network {
    let others = random(n, 257 - n as usize, &[0]);
    let mut pairs: Vec<[u8; 2]> = others.rows.iter().map(|row| row.ends).collect();
    let mut states = vec![OPEN; pairs.len()];
    pairs.extend((1..n).map(|a| [a + 1, a]));
    states.resize(pairs.len(), MUST);
    costed(shapes::with_rows(n, &pairs), &[0]).with_states(&states)
}
