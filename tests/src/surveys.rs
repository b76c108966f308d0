//! A newer survey over an older (document 02, #106): the file that a call writes, or the number of the check that refuses it. And
//! surveys made from seeds, of which it is known what comes of them.

use std::collections::BTreeSet;

use crate::damage::Sizes;
use crate::dimacs::fitting;
use crate::file::{Network, Row, MOST, MOST_ROWS};
use crate::reading;
use crate::rng::Rng;
use crate::shapes;

/// The file of a newer survey over an older.
pub fn survey([older, newer]: [&[u8]; 2], places: usize) -> Result<Vec<u8>, u32> {
    let older = reading::network(older)?;
    let newer = reading::network(newer)?;

    // 18: different n, k or kinds; k is how many kinds there are.
    if older.n != newer.n || older.kinds != newer.kinds {
        return Err(18);
    }
    let again: BTreeSet<[u8; 2]> = newer.rows.iter().map(Row::pair).collect();
    let mut rows = older.rows;
    rows.retain(|row| !again.contains(&row.pair()));
    rows.extend(newer.rows);

    // 19: more than 256 rows.
    if rows.len() > MOST_ROWS {
        return Err(19);
    }
    let whole = Network {
        version: 2,
        n: newer.n,
        kinds: newer.kinds,
        rows,
    };
    fitting(whole.encode(), places)
}

/// An older and a newer survey.
pub struct Surveys {
    pub older: Network,
    pub newer: Network,
    /// Which rows of the older stand.
    pub stands: Vec<bool>,
}

/// A network of either version, with a row between each of these two nodes, either way round.
fn joining(pairs: &[[u8; 2]], n: usize, k: usize, rng: &mut Rng) -> Network {
    let (version, m) = (rng.pick(&[1, 2]), pairs.len());
    let mut network = Sizes { version, n, m, k }.network(rng);
    for (row, &pair) in network.rows.iter_mut().zip(pairs) {
        row.ends = pair;
        rng.shuffle(&mut row.ends);
    }
    network
}

impl Surveys {
    /// Surveys of one frame: so many rows of the older stand, so many go, and so many rows are new. Where rows go there is a new
    /// one; where some stand beside new ones there are three nodes.
    pub fn new(n: usize, k: usize, [stand, go, new]: [usize; 3], rng: &mut Rng) -> Surveys {
        let mut pairs: Vec<[u8; 2]> = shapes::complete(n as u8)
            .rows
            .iter()
            .map(Row::pair)
            .collect();
        rng.shuffle(&mut pairs);
        let (again, once) = pairs.split_at(rng.between(new.min(1), pairs.len() - stand.min(1)));
        let again: Vec<[u8; 2]> = (0..new).map(|_| rng.pick(again)).collect();
        let mut stands = [vec![true; stand], vec![false; go]].concat();
        rng.shuffle(&mut stands);
        let pair = |&stands: &bool| rng.pick(if stands { once } else { &again });
        let before: Vec<[u8; 2]> = stands.iter().map(pair).collect();

        let older = joining(&before, n, k, rng);
        let mut newer = joining(&again, n, k, rng);
        newer.kinds = older.kinds.clone();
        Surveys {
            older,
            newer,
            stands,
        }
    }

    /// Surveys of one frame, of any sizes: mostly few rows, some many, some with about as many as a file may have.
    pub fn random(rng: &mut Rng) -> Surveys {
        let [stand, new] = match rng.between(0, 9) {
            0 | 1 => {
                let all = rng.pick(&[255, 256, 256, 257, 257, 258]);
                let stand = rng.between(all - all.min(MOST_ROWS), all.min(MOST_ROWS));
                [stand, all - stand]
            }
            2 => [0; 2].map(|_| rng.between(0, MOST_ROWS)),
            _ => [0; 2].map(|_| rng.pick(&[0, 0, 1, 2, 3, 4, 5, 6])),
        };
        let room = (MOST_ROWS - stand) * new.min(1);
        let most = rng.pick(&[0, 6, 6, 30, room]);
        let go = rng.between(0, most.min(room));
        let fewest = 2 + stand.min(1) * new.min(1);
        let n = match rng.between(0, 9) {
            0 => fewest,
            1 => 32,
            2 | 3 => rng.between(fewest, 32),
            _ => rng.between(fewest, 6),
        };
        Surveys::new(n, rng.between(1, 4), [stand, go, new], rng)
    }

    /// Gives one of the two another frame: more nodes, criteria more or fewer, another kind, or the kinds in another sequence.
    pub fn part_frames(&mut self, rng: &mut Rng) {
        while self.of_one_frame() {
            let network = match rng.once_in(2) {
                true => &mut self.older,
                false => &mut self.newer,
            };
            let some = rng.between(0, network.k() - 1);
            match rng.between(0, 3) {
                0 => network.n = rng.between(network.n as usize, 32) as u8,
                1 => {
                    let k = rng.between(1, 4);
                    network.kinds.resize(k, rng.between(0, 2) as u8);
                    for row in &mut network.rows {
                        row.costs.resize(k, MOST);
                    }
                }
                2 => network.kinds[some] = rng.between(0, 2) as u8,
                _ => rng.shuffle(&mut network.kinds),
            }
        }
    }

    pub fn of_one_frame(&self) -> bool {
        self.older.n == self.newer.n && self.older.kinds == self.newer.kinds
    }

    /// The newer over the older, if they are of one frame; it may have too many rows.
    pub fn whole(&self) -> Network {
        let older = self.older.rows.iter().zip(&self.stands);
        let standing = older.filter(|(_, &stands)| stands).map(|(row, _)| row);
        let rows = standing.chain(&self.newer.rows).cloned().collect();
        Network {
            version: 2,
            rows,
            ..self.older.clone()
        }
    }
}
