//! Document 01's operations but Open, with document 02's row states (#102), connection charge (#109) and count (#112): the
//! number of the check that refuses a call, or what the call writes in the first places of what it is lent. A buffer is told
//! by its number of places; its content has no say.

use crate::costs::{self, Vector};
use crate::counts::{self, MOST_TREES};
use crate::file::Network;
use crate::reading;
use crate::trees;

/// Reach: the set as a word, and its size.
pub fn reach(file: &[u8]) -> Result<(u32, u32), u32> {
    let network = reading::network(file)?;
    let nodes = trees::reached(&network);
    let word = nodes.iter().map(|&node| 1 << (node - 1)).sum();
    Ok((word, nodes.len() as u32))
}

/// Count: the number of trees.
pub fn count(file: &[u8]) -> Result<u32, u32> {
    let network = reading::network(file)?;
    match counts::count(&network) {
        Some(trees) if trees <= MOST_TREES => Ok(trees as u32),
        _ => Err(25),
    }
}

/// The checks of rows that were drawn in any sequence.
pub fn drawn(network: &Network, rows: &[u16]) -> Result<(), u32> {
    if rows.len() != network.width() {
        return Err(8);
    }
    if rows.iter().any(|&row| row as usize >= network.m()) {
        return Err(9);
    }
    if !trees::is_tree(network, rows) {
        return Err(10);
    }
    if !trees::keeps_states(network, rows) {
        return Err(15);
    }
    Ok(())
}

/// Order: the minimal path.
pub fn order(file: &[u8], rows: &[u16], places: usize) -> Result<Vec<u16>, u32> {
    let network = reading::network(file)?;
    drawn(&network, rows)?;
    if places < network.width() {
        return Err(11);
    }
    Ok(trees::minimal_path(&network, rows))
}

/// Cost: the vector.
pub fn cost(file: &[u8], rows: &[u16], places: usize) -> Result<Vector, u32> {
    let network = reading::network(file)?;
    drawn(&network, rows)?;
    if places < network.k() {
        return Err(11);
    }
    Ok(costs::vector(&network, rows))
}

/// What the connection charge writes: the charges of nodes 2 to n, the whole quotient and the remainder.
pub struct Charged {
    pub charges: Vec<u32>,
    pub quotient: u32,
    pub remainder: u32,
}

/// Connection charge: the total of one added criterion.
pub fn charge(file: &[u8], rows: &[u16], criterion: u32, places: usize) -> Result<Charged, u32> {
    let network = reading::network(file)?;
    drawn(&network, rows)?;
    let nodes = network.width();
    if places < nodes {
        return Err(11);
    }
    if network.kinds.get(criterion as usize) != Some(&0) {
        return Err(22);
    }
    let total = costs::vector(&network, rows)[criterion as usize];
    Ok(split(total, nodes as u32))
}

/// Each node pays its share of what the nodes before it have left, rounded up, so that the first ones bear one more; the
/// quotient is the least charge, and the remainder is how many are above it.
fn split(total: u32, nodes: u32) -> Charged {
    let mut left = total;
    let pay = |behind: u32| {
        let share = left.div_ceil(behind);
        left -= share;
        share
    };
    let charges: Vec<u32> = (1..=nodes).rev().map(pay).collect();
    let quotient = *charges.iter().min().unwrap();
    Charged {
        quotient,
        remainder: charges.iter().filter(|&&charge| charge > quotient).count() as u32,
        charges,
    }
}

/// Pick: the places of tree t.
pub fn pick(n: u32, page: &[u16], t: u64) -> &[u16] {
    if !(2..=32).contains(&n) {
        return &[];
    }
    let trees = page.chunks_exact(n as usize - 1);
    trees.into_iter().nth(t as usize).unwrap_or(&[])
}

/// A network with its list and its front, made once for all the calls over its file.
pub struct Listed {
    pub network: Network,
    pub list: Vec<Vec<u16>>,
    pub front: Vec<Vector>,
    /// beside each vector of the front the first tree of the list that has it
    pub witnesses: Vec<Vec<u16>>,
}

impl Listed {
    /// What the file holds, or the number of the first check that refuses the file.
    pub fn read(file: &[u8]) -> Result<Listed, u32> {
        let network = reading::network(file)?;
        let list = trees::list(&network);
        let vectors: Vec<Vector> = list.iter().map(|t| costs::vector(&network, t)).collect();
        let front = costs::front(vectors.clone());
        let place = |vector: &Vector| vectors.iter().position(|v| v == vector).unwrap();
        let witnesses = front.iter().map(|vector| list[place(vector)].clone());
        Ok(Listed {
            witnesses: witnesses.collect(),
            network,
            list,
            front,
        })
    }
}

/// What Page writes, tree by tree, and its mark.
pub struct Paged<'a> {
    pub trees: &'a [Vec<u16>],
    pub more: bool,
}

/// Page: a page of so many places, after the start.
pub fn page<'a>(
    file: &'a Result<Listed, u32>,
    places: usize,
    start: &[u16],
) -> Result<Paged<'a>, u32> {
    let Listed { network, list, .. } = file.as_ref().map_err(|&number| number)?;
    if list.is_empty() {
        return Err(12);
    }
    if places < network.width() {
        return Err(11);
    }
    let mut rest = &list[..];
    if !start.is_empty() {
        drawn(network, start)?;
        if !trees::is_minimal(network, start) {
            return Err(13);
        }
        let at = list.iter().position(|tree| tree == start).unwrap();
        rest = &list[at + 1..];
    }
    let count = rest.len().min(places / network.width());
    Ok(Paged {
        trees: &rest[..count],
        more: rest.len() > count,
    })
}

/// What Front writes, vector by vector and tree by tree, and its mark.
pub struct Fronted<'a> {
    pub vectors: &'a [Vector],
    pub witnesses: &'a [Vec<u16>],
    pub whole: bool,
}

/// Front: tables of so many places.
pub fn front(
    file: &Result<Listed, u32>,
    cost_places: usize,
    witness_places: usize,
) -> Result<Fronted<'_>, u32> {
    let Listed {
        network,
        list,
        front,
        witnesses,
    } = file.as_ref().map_err(|&number| number)?;
    if list.is_empty() {
        return Err(12);
    }
    if cost_places < network.k() || witness_places < network.width() {
        return Err(11);
    }
    let capacity = (cost_places / network.k()).min(witness_places / network.width());
    let count = front.len().min(capacity);
    Ok(Fronted {
        vectors: &front[..count],
        witnesses: &witnesses[..count],
        whole: front.len() <= capacity,
    })
}
