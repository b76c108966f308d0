//! What can be wrong with a network file: faults by name, each with the check of document 01 or 02 that it runs into; and
//! files with a fault or two.

use crate::file::{mend_length, Network, MOST};
use crate::rng::Rng;

/// The version and the sizes of the sound file that is damaged; they say where its parts stand.
#[derive(Clone, Copy)]
pub struct Sizes {
    pub version: u8,
    pub n: usize,
    pub m: usize,
    pub k: usize,
}

impl Sizes {
    pub fn of(network: &Network) -> Sizes {
        Sizes {
            version: network.version,
            n: network.n as usize,
            m: network.m(),
            k: network.k(),
        }
    }

    /// Mostly small ones, some of any size, some at the limits.
    pub fn random(version: u8, rng: &mut Rng) -> Sizes {
        match rng.between(0, 19) {
            0 => Sizes {
                version,
                n: rng.pick(&[2, 3, 31, 32]),
                m: rng.pick(&[0, 1, 255, 256]),
                k: rng.pick(&[1, 4]),
            },
            1..=4 => Sizes {
                version,
                n: rng.between(2, 32),
                m: rng.between(0, 256),
                k: rng.between(1, 4),
            },
            _ => Sizes {
                version,
                n: rng.between(2, 6),
                m: rng.between(0, 9),
                k: rng.between(1, 4),
            },
        }
    }

    /// A sound network of this version and these sizes.
    pub fn network(self, rng: &mut Rng) -> Network {
        let network = Network::random(rng, self.n, self.m, self.k);
        match self.version {
            1 => network,
            _ => network.with_any_states(rng),
        }
    }

    /// The bytes of a row before its costs: version 2 has a state byte there.
    fn head(self) -> usize {
        if self.version == 1 {
            4
        } else {
            5
        }
    }

    fn row_at(self, row: usize) -> usize {
        9 + self.k + row * (self.head() + 4 * self.k)
    }

    fn cost_at(self, row: usize, criterion: usize) -> usize {
        self.row_at(row) + self.head() + 4 * criterion
    }
}

/// Damages a file that was sound, or that an earlier fault damaged. False, with the file as it was, where it has no place
/// for the fault.
type Damage = fn(&mut Vec<u8>, Sizes, &mut Rng) -> bool;

pub struct Fault {
    pub name: &'static str,
    /// The check that refuses a sound file with this fault alone; 0 where none does; nothing where it differs.
    pub check: Option<u32>,
    pub damage: Damage,
}

const fn fault(name: &'static str, check: u32, damage: Damage) -> Fault {
    Fault {
        name,
        check: Some(check),
        damage,
    }
}

const fn fault_of_any_check(name: &'static str, damage: Damage) -> Fault {
    Fault {
        name,
        check: None,
        damage,
    }
}

const FAULTS: [Fault; 32] = [
    fault("empty", 1, |file, _, _| {
        file.clear();
        true
    }),
    fault("another version", 1, |file, _, rng| {
        let version = rng.pick(&[0, 3, 4, 129, 255]);
        put(file, 0, &[version])
    }),
    fault("under 9 bytes", 2, |file, _, rng| {
        cut(file, rng.between(1, 8))
    }),
    fault(
        "under 9 bytes, with a true length field",
        2,
        |file, _, rng| cut(file, rng.between(5, 8)) && mend(file),
    ),
    fault("length field off by one", 2, |file, _, rng| {
        let by = rng.pick(&[1, u32::MAX]);
        change_length(file, |length| length.wrapping_add(by))
    }),
    fault("length field off by some", 2, |file, _, rng| {
        let by = rng.pick(&[2, 4, 5, 9, 256, 65_536, 1 << 24, 1 << 31]);
        change_length(file, |length| length.wrapping_sub(by))
    }),
    fault("length field of all the bytes", 2, |file, _, _| {
        let length = file.len() as u32;
        change_length(file, |_| length)
    }),
    fault(
        "length field with its bytes turned round",
        2,
        |file, _, _| {
            file.len() > 4
                && file[1..5].iter().ne(file[1..5].iter().rev())
                && change_length(file, u32::swap_bytes)
        },
    ),
    fault("truncated", 2, |file, _, rng| truncate(file, rng)),
    fault("extended", 2, |file, _, rng| extend(file, rng)),
    fault("n out of range", 3, |file, _, rng| {
        let n = rng.pick(&[0, 1, 33, 34, 64, 128, 255]);
        put(file, 5, &[n])
    }),
    fault("m out of range", 3, |file, _, rng| {
        let m: u16 = rng.pick(&[257, 258, 511, 512, 32_768, 65_280, 65_535]);
        put(file, 6, &m.to_be_bytes())
    }),
    fault("k out of range", 3, |file, _, rng| {
        let k = rng.pick(&[0, 5, 6, 128, 255]);
        put(file, 8, &[k])
    }),
    fault("all there for an n out of range", 3, |file, at, rng| {
        let n = rng.pick(&[0, 1, 33, 34, 255]);
        *file = Sizes { n, ..at }.network(rng).encode();
        true
    }),
    fault("all there for an m out of range", 3, |file, at, rng| {
        let m = rng.pick(&[257, 258, 300, 512]);
        *file = Sizes { m, ..at }.network(rng).encode();
        true
    }),
    fault("all there for a k out of range", 3, |file, at, rng| {
        let k = rng.pick(&[0, 5, 6, 255]);
        *file = Sizes { k, ..at }.network(rng).encode();
        true
    }),
    fault("truncated, with a true length field", 4, |file, _, rng| {
        truncate(file, rng) && mend(file)
    }),
    fault("extended, with a true length field", 4, |file, _, rng| {
        file.len() >= 5 && extend(file, rng) && mend(file)
    }),
    fault("another m in range", 4, |file, at, rng| {
        let m = other_than(at.m, 0, 256, rng) as u16;
        put(file, 6, &m.to_be_bytes())
    }),
    fault("another k in range", 4, |file, at, rng| {
        let k = other_than(at.k, 1, 4, rng) as u8;
        put(file, 8, &[k])
    }),
    fault("a kind of 3", 5, |file, at, rng| {
        put(file, 9 + rng.between(0, at.k - 1), &[3])
    }),
    fault("a kind above 2", 5, |file, at, rng| {
        let kind = rng.between(3, 255) as u8;
        put(file, 9 + rng.between(0, at.k - 1), &[kind])
    }),
    fault("an end of 0", 6, |file, at, rng| put_end(file, at, 0, rng)),
    fault("an end of n + 1", 6, |file, at, rng| {
        let end = at.n as u8 + 1;
        put_end(file, at, end, rng)
    }),
    fault("an end above n", 6, |file, at, rng| {
        let end = rng.between(at.n + 1, 255) as u8;
        put_end(file, at, end, rng)
    }),
    fault("equal ends", 6, |file, at, rng| {
        let end = rng.between(1, at.n) as u8;
        put_ends(file, at, [end, end], rng)
    }),
    fault("a cost just above the most", 7, |file, at, rng| {
        put_cost(file, at, MOST + 1, rng)
    }),
    fault("a cost above the most", 7, |file, at, rng| {
        let high = 1 << rng.between(20, 31);
        let any = rng.word() as u32;
        let cost = rng.pick(&[high, high | 1, high | any, u32::MAX]);
        put_cost(file, at, cost, rng)
    }),
    fault("a cost of the most", 0, |file, at, rng| {
        put_cost(file, at, MOST, rng)
    }),
    fault("ends of 1 and n", 0, |file, at, rng| {
        let mut ends = [1, at.n as u8];
        if rng.once_in(2) {
            ends.reverse();
        }
        put_ends(file, at, ends, rng)
    }),
    fault_of_any_check("a byte changed", |file, _, rng| {
        let at = rng.between(0, file.len().max(1) - 1);
        let byte = rng.byte();
        put(file, at, &[byte])
    }),
    fault_of_any_check("a tiny file", |file, at, rng| {
        *file = (0..rng.between(0, 12)).map(|_| rng.byte()).collect();
        if !rng.once_in(8) {
            put(file, 0, &[at.version]);
        }
        if !rng.once_in(4) {
            mend(file);
        }
        if rng.once_in(2) {
            put(file, 5, &[rng.pick(&[1, 2, 32, 33])]);
            put(file, 6, &[0, rng.pick(&[0, 1])]);
            put(file, 8, &[rng.between(0, 5) as u8]);
        }
        if rng.once_in(2) {
            put(file, 9, &[rng.between(0, 3) as u8]);
        }
        true
    }),
];

/// What can only be wrong with a file of version 2.
const STATE_FAULTS: [Fault; 5] = [
    fault("a state of 3", 14, |file, at, rng| {
        put_state(file, at, 3, rng)
    }),
    fault("a state above 2", 14, |file, at, rng| {
        let state = rng.between(3, 255) as u8;
        put_state(file, at, state, rng)
    }),
    fault("every state above 2", 14, |file, at, rng| {
        let state = rng.between(3, 255) as u8;
        at.m > 0 && (0..at.m).all(|row| put(file, at.row_at(row) + 4, &[state]))
    }),
    fault("a state in range", 0, |file, at, rng| {
        let state = rng.between(0, 2) as u8;
        put_state(file, at, state, rng)
    }),
    // 4 where there are rows; a file without rows reads the same in both versions
    fault_of_any_check("version 1 over rows with states", |file, _, _| {
        put(file, 0, &[1])
    }),
];

/// The faults that a file of this version may have.
pub fn faults(version: u8) -> Vec<&'static Fault> {
    let of_states: &[Fault] = if version == 1 { &[] } else { &STATE_FAULTS };
    FAULTS.iter().chain(of_states).collect()
}

/// The network's file with one fault, or two.
pub fn damaged(network: &Network, rng: &mut Rng) -> Vec<u8> {
    let faults = faults(network.version);
    let sizes = Sizes::of(network);
    let mut file = network.encode();
    for _ in 0..rng.between(1, 2) {
        let fault = rng.between(0, faults.len() - 1);
        (faults[fault].damage)(&mut file, sizes, rng);
    }
    file
}

/// Writes bytes over the file's own, if the file has that many from there on.
fn put(file: &mut [u8], at: usize, bytes: &[u8]) -> bool {
    let fits = at + bytes.len() <= file.len();
    if fits {
        file[at..at + bytes.len()].copy_from_slice(bytes);
    }
    fits
}

/// Keeps so many bytes, if the file has more.
fn cut(file: &mut Vec<u8>, keep: usize) -> bool {
    let longer = keep < file.len();
    file.truncate(keep);
    longer
}

/// Takes bytes from the end, one or many, and leaves the header.
fn truncate(file: &mut Vec<u8>, rng: &mut Rng) -> bool {
    if file.len() < 10 {
        return false;
    }
    let most = if rng.once_in(2) { 1 } else { file.len() - 9 };
    let keep = file.len() - rng.between(1, most);
    cut(file, keep)
}

/// Adds bytes at the end, one or many.
fn extend(file: &mut Vec<u8>, rng: &mut Rng) -> bool {
    let most = if rng.once_in(2) { 1 } else { 64 };
    for _ in 0..rng.between(1, most) {
        file.push(rng.byte());
    }
    true
}

/// Sets the length field to what the file's length asks for, if the file has one.
fn mend(file: &mut [u8]) -> bool {
    let has_one = file.len() >= 5;
    if has_one {
        mend_length(file);
    }
    has_one
}

fn change_length(file: &mut [u8], change: impl Fn(u32) -> u32) -> bool {
    if file.len() < 5 {
        return false;
    }
    let length = u32::from_be_bytes([file[1], file[2], file[3], file[4]]);
    put(file, 1, &change(length).to_be_bytes())
}

/// A number from low to high, but not the one given.
fn other_than(not: usize, low: usize, high: usize, rng: &mut Rng) -> usize {
    let x = rng.between(low, high - 1);
    if x < not {
        x
    } else {
        x + 1
    }
}

/// The first row, the last, or any; nothing where there is no row.
fn some_row(at: Sizes, rng: &mut Rng) -> Option<usize> {
    let last = at.m.checked_sub(1)?;
    let any = rng.between(0, last);
    Some(rng.pick(&[0, any, last]))
}

/// Sets one end of some row.
fn put_end(file: &mut [u8], at: Sizes, end: u8, rng: &mut Rng) -> bool {
    some_row(at, rng).is_some_and(|row| put(file, at.row_at(row) + rng.between(0, 1), &[end]))
}

/// Sets both ends of some row.
fn put_ends(file: &mut [u8], at: Sizes, ends: [u8; 2], rng: &mut Rng) -> bool {
    some_row(at, rng).is_some_and(|row| put(file, at.row_at(row), &ends))
}

/// Sets the state of some row.
fn put_state(file: &mut [u8], at: Sizes, state: u8, rng: &mut Rng) -> bool {
    some_row(at, rng).is_some_and(|row| put(file, at.row_at(row) + 4, &[state]))
}

/// Sets some cost of some row.
fn put_cost(file: &mut [u8], at: Sizes, cost: u32, rng: &mut Rng) -> bool {
    some_row(at, rng).is_some_and(|row| {
        let criterion = rng.between(0, at.k - 1);
        put(file, at.cost_at(row, criterion), &cost.to_be_bytes())
    })
}
