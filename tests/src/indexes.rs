//! Trees by number (document 02, #114): what an index holds, and the tree that is fetched with it, from the list as a whole.
//! Each gives the number of the check that refuses a call, or what the call writes. A buffer is told by its number of places.

use crate::file::Network;
use crate::operations::drawn;
use crate::reading;
use crate::trees;
use crate::walk::Graph;

/// A network with its list, made once for all the calls over its file. The first tree is tree 0.
pub struct Numbered {
    pub network: Network,
    pub list: Vec<Vec<u16>>,
}

impl Numbered {
    /// What the file holds, or the number of the first check that refuses the file.
    pub fn read(file: &[u8]) -> Result<Numbered, u32> {
        let network = reading::network(file)?;
        let list = trees::list(&network);
        Ok(Numbered { network, list })
    }

    /// A network whose list is too long for `trees::list`, by the plain walk.
    pub fn walked(network: Network) -> Numbered {
        let mut list = Vec::new();
        Graph::new(&network).walk(&mut |tree| list.push(tree.to_vec()));
        Numbered { network, list }
    }

    /// Trees 0, s, 2 × s and so on.
    pub fn entries(&self, spacing: usize) -> impl Iterator<Item = &[u16]> {
        self.list.iter().step_by(spacing).map(Vec::as_slice)
    }

    /// The index, n - 1 places for each of its trees.
    pub fn index(&self, spacing: usize) -> Vec<u16> {
        self.entries(spacing).flatten().copied().collect()
    }
}

/// A spacing is 1 to 1,000.
fn spaced(spacing: u32) -> Result<usize, u32> {
    match spacing {
        1..=1_000 => Ok(spacing as usize),
        _ => Err(26),
    }
}

/// An index built in so many places.
pub fn build(file: &Result<Numbered, u32>, spacing: u32, places: usize) -> Result<Vec<u16>, u32> {
    let numbered = file.as_ref().map_err(|&number| number)?;
    let spacing = spaced(spacing)?;
    if numbered.list.is_empty() {
        return Err(12);
    }
    let index = numbered.index(spacing);
    if index.len() > places {
        return Err(11);
    }
    Ok(index)
}

/// What a fetch writes: the tree, and how many moves it took.
#[derive(Clone, Copy, Debug, PartialEq)]
pub struct Fetched<'a> {
    pub tree: &'a [u16],
    pub moves: u32,
}

/// The entry that a tree is fetched from, if the index has it whole.
pub fn entry(width: usize, spacing: usize, index: &[u16], tree: u64) -> Option<&[u16]> {
    let number = usize::try_from(tree / spacing as u64).unwrap();
    index.chunks_exact(width).nth(number)
}

/// A tree fetched, into a buffer of so many places.
pub fn fetch<'a>(
    file: &'a Result<Numbered, u32>,
    spacing: u32,
    index: &[u16],
    tree: u64,
    places: usize,
) -> Result<Fetched<'a>, u32> {
    let Numbered { network, list } = file.as_ref().map_err(|&number| number)?;
    let spacing = spaced(spacing)?;
    let width = network.width();
    if places < width {
        return Err(11);
    }
    let rows = entry(width, spacing, index, tree).ok_or(26u32)?;
    drawn(network, rows)?;
    if !trees::is_minimal(network, rows) {
        return Err(13);
    }
    let at = list.iter().position(|tree| tree == rows).unwrap();
    let moves = tree % spacing as u64;
    let tree = list.get(at + moves as usize).ok_or(26u32)?;
    Ok(Fetched {
        tree,
        moves: moves as u32,
    })
}
