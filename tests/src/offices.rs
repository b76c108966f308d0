//! Two offices in one front table (document 02, #111), in two ways. `Office` is an office by itself, which knows of no
//! table: all that it had accepted, from which its front is made anew each time. `enter` is one call by document 01's rule
//! of entering, over whatever rows the tables hold.

use crate::costs::{dominates, front, Vector};
use crate::operations;
use crate::reading;

/// A vector and its tree, as a row of both tables keeps them.
pub type Kept = (Vector, Vec<u16>);

/// Both tables, and how many rows of each half are filled.
#[derive(Clone, Debug, PartialEq)]
pub struct Tables {
    pub costs: Vec<u32>,
    pub witnesses: Vec<u16>,
    pub filled: [u64; 2],
}

impl Tables {
    /// The rows of a half, filled or not, where a half has h rows of k costs and so many row numbers.
    pub fn half(&self, half: usize, h: usize, k: usize, width: usize) -> Vec<Kept> {
        let vectors = self.costs.chunks(k).map(<[u32]>::to_vec);
        let trees = self.witnesses.chunks(width).map(<[u16]>::to_vec);
        vectors.zip(trees).skip(half * h).take(h).collect()
    }
}

/// What an accepted entry is answered.
#[derive(Clone, Copy, Debug, PartialEq)]
pub struct Noted {
    /// 'entered', else 'met'
    pub entered: bool,
    pub count: usize,
}

/// The vector and the minimal path of drawn rows, or the number of the first check of Cost that refuses them; its 11 is
/// left out.
pub fn entry(file: &[u8], rows: &[u16]) -> Result<Kept, u32> {
    let vector = operations::cost(file, rows, usize::MAX)?;
    let path = operations::order(file, rows, usize::MAX)?;
    Ok((vector, path))
}

/// An office by itself: its accepted entries, in sequence.
#[derive(Default)]
pub struct Office {
    accepted: Vec<Kept>,
}

impl Office {
    /// The undominated vectors of the accepted entries, ascending, each with the first entered tree that has it.
    pub fn rows(&self) -> Vec<Kept> {
        let vectors: Vec<Vector> = self.accepted.iter().map(|e| e.0.clone()).collect();
        let first = |vector: Vector| self.accepted.iter().find(|e| e.0 == vector).unwrap();
        front(vectors).into_iter().map(first).cloned().collect()
    }

    /// Accepts an entry unless more than h rows would be needed then; it was met if it changes none of them.
    pub fn offer(&mut self, entry: Kept, h: usize) -> Result<Noted, u32> {
        let before = self.rows();
        self.accepted.push(entry);
        let after = self.rows();
        if after.len() > h {
            self.accepted.pop();
            return Err(24);
        }
        Ok(Noted {
            entered: after != before,
            count: after.len(),
        })
    }
}

/// One call: the tables as it leaves them, and its answer; or the number of the check that refuses it.
pub fn enter(
    file: &[u8],
    rows: &[u16],
    office: u32,
    h: u64,
    tables: &Tables,
) -> Result<(Tables, Noted), u32> {
    let (vector, path) = entry(file, rows)?;
    let network = reading::network(file)?;
    let (k, width) = (network.k(), network.width());

    // 11: an office not 1 or 2, h of 0, tables not of exactly 2 × h rows, or either filled count above h.
    let both_halves = |places: usize, wide: usize| places as u128 == 2 * h as u128 * wide as u128;
    if !(1..=2).contains(&office)
        || h == 0
        || !both_halves(tables.costs.len(), k)
        || !both_halves(tables.witnesses.len(), width)
        || tables.filled.iter().any(|&count| count > h)
    {
        return Err(11);
    }

    let (h, half) = (h as usize, office as usize - 1);
    let count = tables.filled[half] as usize;
    let mut filled = tables.half(half, h, k, width);
    filled.truncate(count);

    // If one of them equals or dominates it, no row changes.
    if filled
        .iter()
        .any(|row| row.0 == vector || dominates(&row.0, &vector))
    {
        let entered = false;
        return Ok((tables.clone(), Noted { entered, count }));
    }
    // The rows it dominates go, and it stands before the first that is greater, or last.
    filled.retain(|row| !dominates(&vector, &row.0));
    let greater = filled.iter().position(|row| row.0 > vector);
    filled.insert(greater.unwrap_or(filled.len()), (vector, path));
    // 24: the half would need more than h rows.
    let count = filled.len();
    if count > h {
        return Err(24);
    }

    // Rows past the new count keep their content.
    let mut after = tables.clone();
    after.filled[half] = count as u64;
    for (place, (vector, path)) in (half * h..).zip(&filled) {
        after.costs[place * k..][..k].copy_from_slice(vector);
        after.witnesses[place * width..][..width].copy_from_slice(path);
    }
    let entered = true;
    Ok((after, Noted { entered, count }))
}
