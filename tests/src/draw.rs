//! Networks and drawn rows made from seeds: rows beside each other, few costs and streets so that they tie, parts that
//! nothing joins, nodes that no row touches, rows with states, streets of many rows; rows drawn well, and with slips.

use crate::counts::{self, MOST_TREES};
use crate::file::{Network, Row, BARRED, MOST, MUST, OPEN};
use crate::rng::Rng;

/// The most nodes and rows of a network: for half of them few, for half as many as there may be.
pub fn sizes(rng: &mut Rng) -> (usize, usize) {
    if rng.once_in(2) {
        (6, 12)
    } else {
        (32, 256)
    }
}

/// A network of at most so many nodes and rows; there must be room for a spanning tree.
pub fn network(rng: &mut Rng, most_nodes: usize, most_rows: usize) -> Network {
    let n = if rng.once_in(10) {
        most_nodes
    } else {
        rng.between(2, most_nodes)
    };
    let pairs = pairs(rng, n, most_rows);

    let k = rng.between(1, 4);
    let most_cost = rng.pick(&[0, 1, 3, 9, 30, MOST as usize]);
    let most_street = rng.pick(&[0, 1, 3, u16::MAX as usize]);
    let row = |ends: [u8; 2]| {
        let street = rng.between(0, most_street) as u16;
        let costs = (0..k).map(|_| rng.between(0, most_cost) as u32).collect();
        Row::new(ends, street, costs)
    };
    let rows = pairs.into_iter().map(row).collect();
    let kinds = (0..k).map(|_| rng.between(0, 2) as u8).collect();
    Network::new(n as u8, kinds, rows)
}

/// A network with states, of at most so many nodes and rows.
pub fn network_with_states(rng: &mut Rng, most_nodes: usize, most_rows: usize) -> Network {
    let network = network(rng, most_nodes, most_rows);
    states(rng, network)
}

/// A network of which few rows have a state, or none, so that mostly many trees are left, of at most so many nodes and rows. Any
/// two nodes may be joined, and every second one of these networks is of the others' kind.
pub fn network_with_few_states(rng: &mut Rng, most_nodes: usize, most_rows: usize) -> Network {
    if rng.once_in(2) {
        return network_with_states(rng, most_nodes, most_rows);
    }
    let n = rng.between(2, most_nodes);
    let m = rng.between(n, most_rows);
    let (musts, barred) = (rng.pick(&[8, 30, 1_000]), rng.pick(&[4, 12, 1_000]));
    let states: Vec<u8> = (0..m)
        .map(|_| match rng.once_in(musts) {
            true => MUST,
            false if rng.once_in(barred) => BARRED,
            false => OPEN,
        })
        .collect();
    Network::random(rng, n, m, 1).with_states(&states)
}

/// The network with one row more at a time, between any two nodes, until it has more trees than Count answers: the last that has
/// not, and the first that has. Of the new rows one in so many is barred.
pub fn up_to_the_limit(rng: &mut Rng, mut network: Network, barred: usize) -> [Network; 2] {
    loop {
        let before = network.clone();
        let mut row = Network::random(rng, network.n as usize, 1, 1)
            .rows
            .remove(0);
        row.state = if rng.once_in(barred) { BARRED } else { OPEN };
        network.rows.push(row);
        if counts::count(&network).is_none_or(|trees| trees > MOST_TREES) {
            return [before, network];
        }
    }
}

/// A network with closing criteria, mostly several, and with few streets, so that most have many rows; 65,535 is always one of
/// them, and the bytes of each stand in another.
pub fn network_with_streets(rng: &mut Rng, most_nodes: usize, most_rows: usize) -> Network {
    let mut network = network(rng, most_nodes, most_rows);
    let closing = rng.between(0, network.k() - 1);
    for (criterion, kind) in network.kinds.iter_mut().enumerate() {
        if criterion == closing || !rng.once_in(3) {
            *kind = 2;
        }
    }
    let named = &[u16::MAX, 0x00ff, 0xff00, 0x0007, 0x0700][..rng.between(1, 5)];
    let off_the_road = rng.pick(&[2, 4, 20]);
    for row in &mut network.rows {
        row.street = match rng.once_in(off_the_road) {
            true => 0,
            false => rng.pick(named),
        };
    }
    network
}

/// The network in version 2. Mostly must rows of one spanning tree and barred rows beside it, few or many, so that a tree is
/// left; then often a state that may leave none: another row of any state, a row beside a must row that must be dug too, a
/// must row's whole cycle, a row of the tree barred. Now and then every row has one state.
fn states(rng: &mut Rng, network: Network) -> Network {
    let m = network.m();
    if m == 0 || rng.once_in(12) {
        let state = rng.pick(&[OPEN, MUST, BARRED]);
        return network.with_states(&vec![state; m]);
    }
    let tree = forest(rng, &network);
    let (musts, barred) = (rng.pick(&[1, 2, 4, 20]), rng.pick(&[1, 2, 4, 20]));
    let mut states: Vec<u8> = (0..m as u16)
        .map(|row| match tree.contains(&row) {
            true if rng.once_in(musts) => MUST,
            false if rng.once_in(barred) => BARRED,
            _ => OPEN,
        })
        .collect();
    let row = rng.between(0, m - 1);
    match rng.between(0, 9) {
        0 => states[row] = rng.pick(&[MUST, BARRED]),
        // every row between the same two nodes must be dug
        1 => {
            let pair = |row: usize| network.rows[row].pair();
            (0..m)
                .filter(|&other| pair(other) == pair(row))
                .for_each(|other| states[other] = MUST);
        }
        // the tree, and a row of any state beside it
        2 => {
            tree.iter().for_each(|&row| states[row as usize] = MUST);
            states[row] = rng.pick(&[MUST, BARRED, OPEN]);
        }
        3 => states[rng.pick(&tree) as usize] = BARRED,
        _ => {}
    }
    network.with_states(&states)
}

/// The ends of the rows.
fn pairs(rng: &mut Rng, n: usize, most_rows: usize) -> Vec<[u8; 2]> {
    let mut nodes: Vec<u8> = (1..=n as u8).collect();
    rng.shuffle(&mut nodes);

    // Mostly one part with all the nodes; else two, of which one may be a single node, or be left without rows.
    let mut parts = vec![&nodes[..]];
    if rng.once_in(4) {
        let (a, b) = nodes.split_at(rng.between(1, n - 1));
        parts = if rng.once_in(2) { vec![a, b] } else { vec![a] };
    }
    parts.retain(|part| part.len() > 1);

    let mut pairs = Vec::new();
    for part in &parts {
        join(rng, part, &mut pairs);
    }
    let room = most_rows - pairs.len();
    for _ in 0..rng.pick(&[0, 1, 2, room / 4, room / 2, room]).min(room) {
        if !parts.is_empty() {
            let part = rng.pick(&parts);
            let pair = if rng.once_in(3) {
                rng.pick(&pairs)
            } else {
                two_of(rng, part)
            };
            pairs.push(pair);
        }
    }

    for pair in &mut pairs {
        rng.shuffle(pair);
    }
    rng.shuffle(&mut pairs);
    // A few rows lost: the network may then be in parts that nobody chose.
    if rng.once_in(6) {
        pairs.truncate(rng.between(0, pairs.len()));
    }
    pairs
}

/// Joins each node of a part to one that stands before it: to the last, so that they make a line, to the first, so that
/// they make a star, or to any.
fn join(rng: &mut Rng, part: &[u8], pairs: &mut Vec<[u8; 2]>) {
    let shape = rng.between(0, 3);
    for i in 1..part.len() {
        let to = match shape {
            0 => i - 1,
            1 => 0,
            _ => rng.between(0, i - 1),
        };
        pairs.push([part[i], part[to]]);
    }
}

fn two_of(rng: &mut Rng, part: &[u8]) -> [u8; 2] {
    let a = rng.between(0, part.len() - 1);
    let b = rng.between(0, part.len() - 2);
    [part[a], part[if b < a { b } else { b + 1 }]]
}

/// A spanning tree in any sequence, if the network has one; else as many rows that make no cycle. States have no say.
pub fn forest(rng: &mut Rng, network: &Network) -> Vec<u16> {
    forest_by(rng, network, |_| 0)
}

/// The same, with must rows taken first and barred rows last: a tree that keeps the states, if the network has one.
pub fn layout(rng: &mut Rng, network: &Network) -> Vec<u16> {
    forest_by(rng, network, |state| match state {
        MUST => 0,
        BARRED => 2,
        _ => 1,
    })
}

/// Rows that make no cycle with those taken before them; of two rows the one of lower rank is taken first.
fn forest_by(rng: &mut Rng, network: &Network, rank: impl Fn(u8) -> u8) -> Vec<u16> {
    let mut rows: Vec<u16> = (0..network.m() as u16).collect();
    rng.shuffle(&mut rows);
    rows.sort_by_key(|&row| rank(network.rows[row as usize].state));
    let mut part: Vec<u8> = (0..=network.n).collect();
    rows.retain(|&row| {
        let [a, b] = network.rows[row as usize]
            .ends
            .map(|end| part[end as usize]);
        part.iter_mut().filter(|p| **p == a).for_each(|p| *p = b);
        a != b
    });
    rng.shuffle(&mut rows);
    rows
}

/// Rows as somebody may draw them: n - 1 of them where there are rows at all, a spanning tree if there is one, where rows have
/// states often one that keeps them, and then often a slip or two.
pub fn rows(rng: &mut Rng, network: &Network) -> Vec<u16> {
    let mut rows = if network.version == 2 && !rng.once_in(3) {
        layout(rng, network)
    } else {
        forest(rng, network)
    };
    while rows.len() < network.width() {
        let row = some_row(rng, network);
        rows.push(row);
    }
    for _ in 0..rng.pick(&[0, 0, 0, 1, 1, 1, 2]) {
        slip(rng, network, &mut rows);
    }
    rows
}

/// A row of the network; the number of a missing one if it has none.
fn some_row(rng: &mut Rng, network: &Network) -> u16 {
    rng.between(0, network.m().max(1) - 1) as u16
}

fn slip(rng: &mut Rng, network: &Network, rows: &mut Vec<u16>) {
    let row = some_row(rng, network);
    if rows.is_empty() {
        return rows.push(row);
    }
    let at = rng.between(0, rows.len() - 1);
    match rng.between(0, 5) {
        // one too few, or none at all
        0 => {
            rows.remove(at);
            if rng.once_in(4) {
                rows.clear();
            }
        }
        // one too many, or many
        1 => {
            rows.insert(at, row);
            if rng.once_in(4) {
                rows.extend_from_within(..);
            }
        }
        // no row of the network, some with the low bits of one
        2 => {
            let m = network.m() as u16;
            rows[at] = rng.pick(&[
                m,
                m + 1,
                256,
                257,
                row + 256,
                row + 512,
                row + 0x8000,
                0xffff,
            ]);
        }
        // one row twice
        3 => rows[at] = rng.pick(rows),
        // another row in one's place
        _ => rows[at] = row,
    }
}
