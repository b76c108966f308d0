//! Networks of known shapes, of one added criterion with costs of 0: those whose counts are published, and those that are hard
//! to count.

use crate::file::{Network, Row, MOST_ROWS};
use crate::rng::Rng;
use crate::trees;

/// A network with these rows.
pub fn with_rows(n: u8, pairs: &[[u8; 2]]) -> Network {
    let row = |&ends: &[u8; 2]| Row::new(ends, 0, vec![0]);
    Network::new(n, vec![0], pairs.iter().map(row).collect())
}

/// A row between each two nodes a < b that pass a test, ascending.
pub fn joined(n: u8, test: impl Fn(u8, u8) -> bool) -> Network {
    let pairs: Vec<[u8; 2]> = (1..=n)
        .flat_map(|a| (a + 1..=n).map(move |b| [a, b]))
        .filter(|&[a, b]| test(a, b))
        .collect();
    with_rows(n, &pairs)
}

pub fn complete(n: u8) -> Network {
    joined(n, |_, _| true)
}

/// A ring in which each node has a row to those so many places on.
pub fn ring(n: u8, steps: &[u8]) -> Network {
    joined(n, |a, b| {
        steps.contains(&(b - a)) || steps.contains(&(n - (b - a)))
    })
}

/// The rows of the complete graph, those between the nearest nodes of a ring first, as many as a file may have: from 24 nodes on
/// some are left out.
pub fn dense(n: u8) -> Network {
    let mut network = complete(n);
    network.rows.sort_by_key(|row| {
        let apart = row.ends[1] - row.ends[0];
        apart.min(n - apart)
    });
    network.rows.truncate(MOST_ROWS);
    network
}

/// Two rings of five, the inner one by every second node, and a spoke from each node to its own.
pub fn petersen() -> Network {
    let mut pairs = Vec::new();
    for i in 0..5 {
        pairs.push([i + 1, (i + 1) % 5 + 1]);
        pairs.push([i + 6, (i + 2) % 5 + 6]);
        pairs.push([i + 1, i + 6]);
    }
    with_rows(10, &pairs)
}

/// A ring of n - 1 nodes, each with a row to node 1.
pub fn wheel(n: u8) -> Network {
    joined(n, |a, b| a == 1 || b == a + 1 || [a, b] == [2, n])
}

/// A grid, its nodes numbered line by line.
pub fn grid(lines: u8, columns: u8) -> Network {
    joined(lines * columns, |a, b| {
        b == a + columns || b == a + 1 && a % columns != 0
    })
}

/// Two lines of n / 2 nodes with a rung from each node to its own.
pub fn ladder(n: u8) -> Network {
    grid(2, n / 2)
}

/// Small ones with their counts, by document 004 (n to the power n - 2) and document 003.
pub fn of_known_counts() -> [(&'static str, Network, usize); 7] {
    [
        ("complete graph of 4 nodes", complete(4), 16),
        ("complete graph of 5 nodes", complete(5), 125),
        ("complete graph of 6 nodes", complete(6), 1_296),
        ("complete graph of 7 nodes", complete(7), 16_807),
        ("Petersen graph", petersen(), 2_000),
        ("wheel of 6 nodes", wheel(6), 121),
        ("ladder of 8 nodes", ladder(8), 56),
    ]
}

/// A line from node 1 on, its steps by so many rows beside each other.
pub fn line(beside: &[usize]) -> Network {
    let steps = (1..).zip(beside);
    let pairs: Vec<[u8; 2]> = steps
        .flat_map(|(a, &rows)| vec![[a, a + 1]; rows])
        .collect();
    with_rows(beside.len() as u8 + 1, &pairs)
}

/// The network of 20 nodes and 46 rows that document 002 measures.
pub fn of_document_002() -> Network {
    let behind: [&[u8]; 18] = [
        &[2, 6, 11],
        &[3, 4, 5, 6],
        &[4, 8],
        &[5, 7, 8],
        &[6, 7],
        &[7, 11, 12, 20],
        &[8, 9, 10, 20],
        &[9, 16],
        &[10, 15, 16],
        &[12, 13, 14, 15, 20],
        &[12, 19],
        &[13, 20],
        &[14, 19],
        &[15, 19],
        &[16, 18],
        &[17, 18],
        &[18],
        &[19],
    ];
    joined(20, |a, b| {
        behind
            .get(a as usize - 1)
            .is_some_and(|ends| ends.contains(&b))
    })
}

/// So many rows at each node, no two of them beside each other, and all nodes joined: rows are drawn until they are so.
pub fn regular(n: u8, degree: usize, rng: &mut Rng) -> Network {
    let mut ends: Vec<u8> = (1..=n).flat_map(|node| vec![node; degree]).collect();
    loop {
        rng.shuffle(&mut ends);
        let ordered = |pair: &[u8]| [pair[0].min(pair[1]), pair[0].max(pair[1])];
        let mut pairs: Vec<[u8; 2]> = ends.chunks(2).map(ordered).collect();
        pairs.sort();
        let different = pairs.windows(2).all(|two| two[0] != two[1]);
        if different && pairs.iter().all(|[a, b]| a != b) {
            let network = with_rows(n, &pairs);
            if trees::reached(&network).len() == n as usize {
                return network;
            }
        }
    }
}

/// The network with a node put into one row after another, in any sequence and each row once before any twice, until there are n.
/// The new nodes are named first, so that those where rows branch off come last.
pub fn parted(network: &Network, n: u8, rng: &mut Rng) -> Network {
    let new = n - network.n;
    let ends = network.rows.iter().map(|row| row.ends);
    let mut pairs: Vec<[u8; 2]> = ends.map(|ends| ends.map(|end| end + new)).collect();
    let mut rows: Vec<usize> = (0..pairs.len()).collect();
    rng.shuffle(&mut rows);
    for (node, &row) in (1..=new).zip(rows.iter().cycle()) {
        let [a, b] = pairs[row];
        pairs[row] = [a, node];
        pairs.push([node, b]);
    }
    with_rows(n, &pairs)
}

/// Networks beside each other, which no row joins.
pub fn apart(parts: &[Network]) -> Network {
    let mut pairs = Vec::new();
    let mut before = 0;
    for part in parts {
        let ends = part.rows.iter().map(|row| row.ends);
        pairs.extend(ends.map(|ends| ends.map(|end| end + before)));
        before += part.n;
    }
    with_rows(before, &pairs)
}

/// Networks in a line, a bridge from the last node of each to the first of the next.
pub fn bridged(blocks: &[Network]) -> Network {
    let mut network = apart(blocks);
    let mut last = 0;
    for block in &blocks[..blocks.len() - 1] {
        last += block.n;
        let bridge = Row::new([last, last + 1], 0, vec![0]);
        network.rows.push(bridge);
    }
    network
}

/// Networks in a line, of which the last node of each is the first of the next.
pub fn chained(blocks: &[Network]) -> Network {
    let mut pairs = Vec::new();
    let mut before = 0;
    for block in blocks {
        let ends = block.rows.iter().map(|row| row.ends);
        pairs.extend(ends.map(|ends| ends.map(|end| end + before)));
        before += block.n - 1;
    }
    with_rows(before + 1, &pairs)
}

/// The same network with its nodes named anew: node a is now the a-th of these.
pub fn renamed(mut network: Network, names: &[u8]) -> Network {
    for row in &mut network.rows {
        row.ends = row.ends.map(|end| names[end as usize - 1]);
    }
    network
}

/// The same network with its nodes named in any way.
pub fn any_names(network: Network, rng: &mut Rng) -> Network {
    let mut names: Vec<u8> = (1..=network.n).collect();
    rng.shuffle(&mut names);
    renamed(network, &names)
}
