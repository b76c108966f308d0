//! What can be wrong with an index that somebody kept (document 02, #114): damages by name, each with the number that then
//! refuses a fetch.

use std::ops::Range;

use crate::draw;
use crate::file::{Network, BARRED, MUST};
use crate::indexes::Numbered;
use crate::rng::Rng;
use crate::trees;

/// Where an index is damaged: it was built for this list and spacing, and has this entry, from which a tree is to be fetched.
#[derive(Clone, Copy)]
pub struct At<'a> {
    pub numbered: &'a Numbered,
    pub spacing: usize,
    pub entry: usize,
    /// an index of another network
    pub other: &'a [u16],
}

impl At<'_> {
    fn network(&self) -> &Network {
        &self.numbered.network
    }

    /// The places of the entry.
    fn places(&self) -> Range<usize> {
        let width = self.network().width();
        self.entry * width..(self.entry + 1) * width
    }

    /// One of the entry's places.
    fn some_place(&self, rng: &mut Rng) -> usize {
        let places = self.places();
        rng.between(places.start, places.end - 1)
    }
}

pub struct Damage {
    pub name: &'static str,
    /// What refuses a fetch of a tree of the list from an index with this damage alone; 0 where the tree is fetched all the
    /// same; nothing where it differs.
    pub number: Option<u32>,
    /// False, with the index as it was, where the damage cannot be done.
    pub damage: fn(&mut Vec<u16>, At, &mut Rng) -> bool,
}

pub const DAMAGES: [Damage; 20] = [
    Damage {
        name: "another tree of the list",
        number: None,
        damage: |index, at, rng| {
            let list = &at.numbered.list;
            let tree = &list[rng.between(0, list.len() - 1)];
            put(index, at, tree)
        },
    },
    Damage {
        name: "the last tree of the list",
        number: None,
        damage: |index, at, _| put(index, at, at.numbered.list.last().unwrap()),
    },
    Damage {
        name: "two rows exchanged",
        number: Some(13),
        damage: |index, at, rng| {
            let (a, b) = (at.some_place(rng), at.some_place(rng));
            let there = holds(index, at) && a != b;
            if there {
                index.swap(a, b);
            }
            there
        },
    },
    Damage {
        name: "the rows turned round",
        number: Some(13),
        damage: |index, at, _| {
            let there = holds(index, at) && at.places().len() > 1;
            if there {
                index[at.places()].reverse();
            }
            there
        },
    },
    Damage {
        name: "a row twice",
        number: Some(10),
        damage: |index, at, rng| {
            let (a, b) = (at.some_place(rng), at.some_place(rng));
            let there = holds(index, at) && a != b;
            if there {
                index[a] = index[b];
            }
            there
        },
    },
    Damage {
        name: "different rows that are no tree",
        number: Some(10),
        damage: |index, at, rng| {
            let network = at.network();
            let mut rows: Vec<u16> = (0..network.m() as u16).collect();
            rng.shuffle(&mut rows);
            rows.truncate(network.width());
            !trees::is_tree(network, &rows) && put(index, at, &rows)
        },
    },
    Damage {
        name: "another row in one's place",
        number: None,
        damage: |index, at, rng| {
            let row = rng.between(0, at.network().m() - 1) as u16;
            put_row(index, at, row, rng)
        },
    },
    Damage {
        name: "a row of m",
        number: Some(9),
        damage: |index, at, rng| put_row(index, at, at.network().m() as u16, rng),
    },
    Damage {
        name: "a row of 65,535",
        number: Some(9),
        damage: |index, at, rng| put_row(index, at, u16::MAX, rng),
    },
    Damage {
        name: "a row with the low byte of its own",
        number: Some(9),
        damage: |index, at, rng| {
            let place = at.some_place(rng);
            let there = holds(index, at) && index[place] < 256;
            if there {
                index[place] += rng.pick(&[256, 512, 0x4000, 0x8000]);
            }
            there
        },
    },
    Damage {
        name: "a barred row",
        number: Some(15),
        damage: |index, at, rng| {
            let is_barred = |row: &u16| at.network().rows[*row as usize].state == BARRED;
            let tree = draw::forest(rng, at.network());
            tree.iter().any(is_barred) && put(index, at, &trees::minimal_path(at.network(), &tree))
        },
    },
    Damage {
        name: "a must row left out",
        number: Some(15),
        damage: |index, at, rng| {
            let musts = trees::rows_of(at.network(), |state| state == MUST);
            let tree = draw::forest(rng, at.network());
            musts.iter().any(|must| !tree.contains(must))
                && put(index, at, &trees::minimal_path(at.network(), &tree))
        },
    },
    Damage {
        name: "cut in the middle of the entry",
        number: Some(26),
        damage: |index, at, rng| {
            let keep = at.some_place(rng);
            keep > at.places().start && cut(index, at, keep)
        },
    },
    Damage {
        name: "cut before the entry",
        number: Some(26),
        damage: |index, at, rng| {
            let keep = rng.pick(&[0, at.places().start, at.places().start]);
            cut(index, at, keep)
        },
    },
    Damage {
        name: "cut behind the entry",
        number: Some(0),
        damage: |index, at, _| cut(index, at, at.places().end),
    },
    Damage {
        name: "an index of another spacing",
        number: None,
        damage: |index, at, rng| {
            let near = [at.spacing - 1, at.spacing + 1, 2 * at.spacing];
            let any = rng.between(1, 1_000);
            let spacing = rng.pick(&[near[0], near[1], near[2], any, any]);
            let other = spacing != at.spacing && (1..=1_000).contains(&spacing);
            if other {
                *index = at.numbered.index(spacing);
            }
            other
        },
    },
    Damage {
        name: "an index of another network",
        number: None,
        damage: |index, at, _| {
            let other = !at.other.is_empty();
            if other {
                *index = at.other.to_vec();
            }
            other
        },
    },
    // only the one entry is read
    Damage {
        name: "every other entry",
        number: Some(0),
        damage: |index, at, rng| {
            let others = index.len() > at.places().len();
            for (place, row) in index.iter_mut().enumerate() {
                if !at.places().contains(&place) {
                    *row = rng.word() as u16;
                }
            }
            others
        },
    },
    Damage {
        name: "places behind the last entry",
        number: Some(0),
        damage: |index, at, rng| {
            for _ in 0..rng.between(1, 2 * at.places().len()) {
                index.push(rng.word() as u16);
            }
            true
        },
    },
    Damage {
        name: "trees of the list behind the last entry",
        number: Some(0),
        damage: |index, at, rng| {
            for _ in 0..rng.between(1, 3) {
                let tree = rng.between(0, at.numbered.list.len() - 1);
                index.extend(&at.numbered.list[tree]);
            }
            true
        },
    },
];

/// Whether the index has the entry whole: an earlier damage may have cut it.
fn holds(index: &[u16], at: At) -> bool {
    at.places().end <= index.len()
}

/// Writes these rows over the entry, if it does not have them already.
fn put(index: &mut [u16], at: At, rows: &[u16]) -> bool {
    let other = holds(index, at) && index[at.places()] != *rows;
    if other {
        index[at.places()].copy_from_slice(rows);
    }
    other
}

/// Writes a row over one of the entry's, if that is another.
fn put_row(index: &mut [u16], at: At, row: u16, rng: &mut Rng) -> bool {
    let place = at.some_place(rng);
    let other = holds(index, at) && index[place] != row;
    if other {
        index[place] = row;
    }
    other
}

/// Keeps so many places, if there are more.
fn cut(index: &mut Vec<u16>, at: At, keep: usize) -> bool {
    let longer = holds(index, at) && keep < index.len();
    if longer {
        index.truncate(keep);
    }
    longer
}
