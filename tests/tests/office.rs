//! Two offices in one front table (document 02, #111), as linked from the proved library: worked entries first, then seeded
//! sequences of entries by both offices, held to an office by itself and to the rule of entering, and single calls over
//! tables of any content. Both tables are compared whole after every call.

use std::collections::BTreeMap;

use planner_tests::costs::dominates;
use planner_tests::damage::damaged;
use planner_tests::draw;
use planner_tests::ffi::{self, SHORT_ANSWER};
use planner_tests::file::{network_a, Network, Row, BARRED, MUST, OPEN};
use planner_tests::lent::Lent;
use planner_tests::offices::{self, Kept, Noted, Office, Tables};
use planner_tests::rng::Rng;
use planner_tests::trees;

/// What the first place of the answer says.
const MET: u32 = 0;
const ENTERED: u32 = 1;

/// A network and its tables, of which every place holds 99 at first.
struct Desk {
    network: Network,
    h: u64,
    tables: Tables,
}

impl Desk {
    fn new(network: Network, h: usize) -> Desk {
        let tables = Tables {
            costs: vec![99; 2 * h * network.k()],
            witnesses: vec![99; 2 * h * network.width()],
            filled: [0, 0],
        };
        Desk {
            network,
            h: h as u64,
            tables,
        }
    }

    /// Enters drawn rows for an office, with an answer of two places; the count is kept for the next call.
    fn enter(&mut self, office: u32, rows: &[u16]) -> Result<[u32; 2], u32> {
        let mut answer = [77; 2];
        let Tables {
            costs,
            witnesses,
            filled,
        } = &mut self.tables;
        let file = self.network.encode();
        match ffi::office(
            &file,
            rows,
            office,
            self.h,
            (costs, witnesses),
            *filled,
            &mut answer,
        ) {
            0 => {
                filled[office as usize - 1] = answer[1] as u64;
                Ok(answer)
            }
            number => {
                assert_eq!(answer, [77; 2]);
                Err(number)
            }
        }
    }

    /// The same, of a call that is refused and leaves the tables as they were.
    fn refused(&mut self, office: u32, rows: &[u16]) -> u32 {
        let before = self.tables.clone();
        let number = self.enter(office, rows).unwrap_err();
        assert_eq!(self.tables, before);
        number
    }

    /// The same, with another h, and tables and counts as given; they must be as they were afterwards.
    fn refused_with(&self, h: u64, tables: &Tables) -> u32 {
        let mut desk = Desk {
            network: self.network.clone(),
            h,
            tables: tables.clone(),
        };
        desk.refused(1, &[2, 0])
    }
}

/// Network A's trees: 0 2 costs 9 7, 1 2 costs 11 5, 0 3 costs 7 7, 1 3 costs 9 6, and 2 3 costs 8 6.
#[test]
fn network_a_is_entered() {
    let mut desk = Desk::new(network_a(), 2);
    // into an empty half, as its minimal path
    assert_eq!(desk.enter(1, &[2, 0]), Ok([ENTERED, 1]));
    assert_eq!(desk.tables.costs, [9, 7, 99, 99, 99, 99, 99, 99]);
    assert_eq!(desk.tables.witnesses, [0, 2, 99, 99, 99, 99, 99, 99]);
    // the same tree, drawn the other way
    assert_eq!(desk.enter(1, &[0, 2]), Ok([MET, 1]));
    // office 2 has rows of its own, and what office 1 entered does not meet it
    assert_eq!(desk.enter(2, &[0, 2]), Ok([ENTERED, 1]));
    assert_eq!(desk.tables.costs, [9, 7, 99, 99, 9, 7, 99, 99]);
    assert_eq!(desk.tables.witnesses, [0, 2, 99, 99, 0, 2, 99, 99]);
    // a row that is dominated goes
    assert_eq!(desk.enter(1, &[3, 2]), Ok([ENTERED, 1]));
    assert_eq!(desk.tables.costs, [8, 6, 99, 99, 9, 7, 99, 99]);
    assert_eq!(desk.tables.witnesses, [2, 3, 99, 99, 0, 2, 99, 99]);
    // met by a row that dominates it
    assert_eq!(desk.enter(1, &[1, 3]), Ok([MET, 1]));
    assert_eq!(desk.enter(1, &[0, 2]), Ok([MET, 1]));
    // office 2 before its row, and behind it
    assert_eq!(desk.enter(2, &[3, 0]), Ok([ENTERED, 1]));
    assert_eq!(desk.enter(2, &[1, 2]), Ok([ENTERED, 2]));
    assert_eq!(desk.tables.costs, [8, 6, 99, 99, 7, 7, 11, 5]);
    assert_eq!(desk.tables.witnesses, [2, 3, 99, 99, 0, 3, 1, 2]);
    assert_eq!(desk.enter(1, &[0, 3]), Ok([ENTERED, 2]));
    assert_eq!(desk.tables.costs, [7, 7, 8, 6, 7, 7, 11, 5]);
    assert_eq!(desk.tables.witnesses, [0, 3, 2, 3, 0, 3, 1, 2]);
    assert_eq!(desk.tables.filled, [2, 2]);
}

#[test]
fn no_room_and_what_comes_after_it() {
    let mut desk = Desk::new(network_a(), 1);
    assert_eq!(desk.enter(2, &[0, 2]), Ok([ENTERED, 1]));
    assert_eq!(desk.refused(2, &[1, 2]), 24);
    // 11 5 was not counted; 9 6 takes the row of 9 7, and 8 6 that of 9 6
    assert_eq!(desk.enter(2, &[0, 2]), Ok([MET, 1]));
    assert_eq!(desk.enter(2, &[1, 3]), Ok([ENTERED, 1]));
    assert_eq!(desk.enter(2, &[0, 2]), Ok([MET, 1]));
    assert_eq!(desk.enter(2, &[2, 3]), Ok([ENTERED, 1]));
    assert_eq!(desk.tables.costs, [99, 99, 8, 6]);
    assert_eq!(desk.tables.witnesses, [99, 99, 2, 3]);
    assert_eq!(desk.refused(2, &[0, 3]), 24);
    assert_eq!(desk.refused(2, &[1, 2]), 24);
    // the other half has room
    assert_eq!(desk.enter(1, &[1, 2]), Ok([ENTERED, 1]));
    assert_eq!(desk.refused(1, &[0, 2]), 24);
    assert_eq!(desk.tables.costs, [11, 5, 8, 6]);
    assert_eq!(desk.tables.witnesses, [1, 2, 2, 3]);

    let mut desk = Desk::new(network_a(), 2);
    for (rows, count) in [([0, 2], 1), ([1, 2], 2)] {
        assert_eq!(desk.enter(1, &rows), Ok([ENTERED, count]));
    }
    // a full half: one row goes, and another comes
    assert_eq!(desk.enter(1, &[2, 3]), Ok([ENTERED, 2]));
    assert_eq!(desk.refused(1, &[0, 3]), 24);
    assert_eq!(desk.tables.costs, [8, 6, 11, 5, 99, 99, 99, 99]);
    assert_eq!(desk.tables.witnesses, [2, 3, 1, 2, 99, 99, 99, 99]);
}

/// Network A with a fifth row.
fn a_with(row: Row) -> Network {
    let mut network = network_a();
    network.rows.push(row);
    network
}

/// Of trees with equal vectors the first entered stays, whichever the list has first.
#[test]
fn an_equal_vector_is_met() {
    let beside_3 = a_with(Row::new([3, 2], 0, vec![3, 6]));
    for (first, second, path) in [([2, 3], [2, 4], [2, 3]), ([4, 2], [3, 2], [2, 4])] {
        let mut desk = Desk::new(beside_3.clone(), 2);
        assert_eq!(desk.enter(1, &first), Ok([ENTERED, 1]));
        assert_eq!(desk.enter(1, &second), Ok([MET, 1]));
        assert_eq!(desk.tables.witnesses[..4], [path[0], path[1], 99, 99]);
        assert_eq!(desk.enter(2, &second), Ok([ENTERED, 1]));
        assert_eq!(desk.enter(2, &first), Ok([MET, 1]));
        assert_eq!(desk.tables.costs, [8, 6, 99, 99, 8, 6, 99, 99]);
    }
}

/// Where several rows go, those past the new count keep what they held.
#[test]
fn rows_past_the_count_are_kept() {
    let cheap = a_with(Row::new([2, 1], 0, vec![1, 1]));
    let mut desk = Desk::new(cheap, 3);
    for (rows, count) in [([1, 2], 1), ([0, 3], 2), ([2, 3], 3)] {
        assert_eq!(desk.enter(2, &rows), Ok([ENTERED, count]));
    }
    assert_eq!(desk.tables.costs[6..], [7, 7, 8, 6, 11, 5]);
    assert_eq!(desk.tables.witnesses[6..], [0, 3, 2, 3, 1, 2]);
    // 6 5 dominates all three
    assert_eq!(desk.enter(2, &[2, 4]), Ok([ENTERED, 1]));
    assert_eq!(desk.tables.costs[6..], [6, 5, 8, 6, 11, 5]);
    assert_eq!(desk.tables.witnesses[6..], [4, 2, 2, 3, 1, 2]);
    // 11 5 still stands there, but no more as a filled row: 4 6 has room, and writes over one of them
    assert_eq!(desk.enter(2, &[4, 3]), Ok([ENTERED, 2]));
    assert_eq!(desk.tables.costs[6..], [4, 6, 6, 5, 11, 5]);
    assert_eq!(desk.tables.witnesses[6..], [4, 3, 4, 2, 1, 2]);
    assert_eq!(desk.enter(2, &[1, 2]), Ok([MET, 2]));
    assert_eq!(desk.tables.costs[..6], [99; 6]);
    assert_eq!(desk.tables.witnesses[..6], [99; 6]);
}

/// 11, whatever the low bytes of the office's number are.
#[test]
fn offices_that_there_are_not() {
    let mut desk = Desk::new(network_a(), 2);
    for office in [
        0,
        3,
        4,
        255,
        256,
        257,
        258,
        65_537,
        65_538,
        1 << 24,
        1 << 31 | 1,
        1 << 31 | 2,
        u32::MAX,
    ] {
        assert_eq!(desk.refused(office, &[2, 0]), 11, "{office}");
        // the checks of Cost come first
        assert_eq!(desk.refused(office, &[0, 1]), 10);
        assert_eq!(desk.refused(office, &[0, 4]), 9);
        assert_eq!(desk.refused(office, &[0]), 8);
    }
}

/// 11 for every h but the tables' own: also where 2 × h × k or 2 × h × (n - 1), reckoned in 64 or 32 bits, comes to their
/// lengths.
#[test]
fn tables_of_another_h() {
    // k and n - 1 are 2
    let desk = Desk::new(network_a(), 2);
    let mut others: Vec<u64> = vec![0, 1, 3, 4, 8, u64::MAX, u64::MAX - 1, u64::MAX / 2];
    for bit in 8..64 {
        others.extend([1 << bit, 1 << bit | 1, 1 << bit | 2, 3 << (bit - 1) | 2]);
    }
    others.extend([
        u64::MAX / 4 + 3,
        u64::MAX / 2 + 3,
        u64::MAX / 4 * 3 + 3 + 2,
        u64::from(u32::MAX) + 3,
    ]);
    for h in others {
        assert_eq!(desk.refused_with(h, &desk.tables), 11, "{h}");
        // a table without places has no rows, however many are asked for
        for (costs, witnesses) in [(0, 0), (0, 8), (8, 0)] {
            let tables = Tables {
                costs: vec![99; costs],
                witnesses: vec![99; witnesses],
                filled: [0, 0],
            };
            assert_eq!(desk.refused_with(h, &tables), 11, "{h}");
        }
    }

    // k is 4 and n - 1 is 1, 3 and 4: wrapped products of one table or of both
    for n in [2, 4, 5] {
        let line = |i: u8| Row::new([i, i + 1], 0, vec![5; 4]);
        let network = Network::new(n, vec![0; 4], (1..n).map(line).collect());
        let drawn: Vec<u16> = (0..n as u16 - 1).collect();
        let mut desk = Desk::new(network, 3);
        for by in (58..64).flat_map(|bit| [1 << bit, 3 << (bit - 1), 5 << (bit - 2)]) {
            desk.h = 3 + by;
            assert_eq!(desk.refused(2, &drawn), 11, "{by}");
        }
        desk.h = 3;
        assert_eq!(desk.enter(2, &drawn), Ok([ENTERED, 1]));
    }
}

/// 11 for tables a place or a row too short or too long, and for counts above h.
#[test]
fn tables_and_counts_that_do_not_fit() {
    let desk = Desk::new(network_a(), 2);
    for costs in 0..20 {
        for witnesses in 0..20 {
            if (costs, witnesses) != (8, 8) {
                let tables = Tables {
                    costs: vec![99; costs],
                    witnesses: vec![99; witnesses],
                    filled: [0, 0],
                };
                assert_eq!(desk.refused_with(2, &tables), 11);
            }
        }
    }
    for above in [3, 4, 256, 1 << 32, 1 << 32 | 1, 1 << 63, u64::MAX] {
        for filled in [[above, 0], [0, above], [above, above], [2, above]] {
            let tables = Tables {
                filled,
                ..desk.tables.clone()
            };
            assert_eq!(desk.refused_with(2, &tables), 11, "{filled:?}");
        }
    }
}

/// The checks of Cost stand before 11, also that of the rows' states, and 24 stands behind it.
#[test]
fn checks_in_their_order() {
    let states = network_a().with_states(&[BARRED, OPEN, OPEN, MUST]);
    let mut desk = Desk::new(states, 1);
    assert_eq!(desk.refused(1, &[2, 1]), 15);
    assert_eq!(desk.refused(3, &[2, 1]), 15);
    assert_eq!(desk.refused(3, &[0, 1]), 10);
    assert_eq!(desk.refused(3, &[3, 1]), 11);
    assert_eq!(desk.enter(1, &[3, 1]), Ok([ENTERED, 1]));
    assert_eq!(desk.enter(1, &[3, 2]), Ok([ENTERED, 1]));
    assert_eq!(desk.enter(1, &[3, 1]), Ok([MET, 1]));

    let mut desk = Desk::new(network_a(), 1);
    assert_eq!(desk.enter(1, &[1, 2]), Ok([ENTERED, 1]));
    assert_eq!(desk.refused(1, &[0, 2]), 24);
    desk.tables.filled[1] = 2;
    assert_eq!(desk.refused(1, &[0, 2]), 11);
    desk.tables.filled[1] = 1;
    assert_eq!(desk.refused(1, &[0, 2]), 24);
}

/// An answer of under two places comes before any check.
#[test]
fn short_answers() {
    let mut desk = Desk::new(network_a(), 2);
    assert_eq!(desk.enter(1, &[2, 0]), Ok([ENTERED, 1]));
    let file = desk.network.encode();
    let rng = &mut Rng::new(0);
    for answer_places in [0, 1] {
        for (file, rows, office, h) in [
            (&file[..], &[3, 2][..], 1, 2),
            (&file[..], &[0, 2][..], 1, 2),
            (&file[..], &[0][..], 3, 0),
            (&[][..], &[][..], 0, u64::MAX),
        ] {
            let call = Call {
                file,
                rows,
                office,
                h,
                tables: &desk.tables,
                answer_places,
            };
            assert_eq!(call.hold(rng), Err(SHORT_ANSWER));
        }
    }
}

/// One call, with so many places of the answer.
struct Call<'a> {
    file: &'a [u8],
    rows: &'a [u16],
    office: u32,
    h: u64,
    tables: &'a Tables,
    answer_places: usize,
}

impl Call<'_> {
    /// Makes the call and holds it to the rule of entering; returns what it left and answered, or its refusal.
    fn hold(&self, rng: &mut Rng) -> Result<(Tables, Noted), u32> {
        let mut costs = Lent::holding(&self.tables.costs, || rng.word() as u32);
        let mut witnesses = Lent::holding(&self.tables.witnesses, || rng.word() as u16);
        let mut answer = Lent::new(self.answer_places, || rng.word() as u32);
        let code = ffi::office(
            self.file,
            self.rows,
            self.office,
            self.h,
            (costs.part(), witnesses.part()),
            self.tables.filled,
            answer.part(),
        );
        let expected = match self.answer_places {
            0 | 1 => Err(SHORT_ANSWER),
            _ => offices::enter(self.file, self.rows, self.office, self.h, self.tables),
        };
        let told = || {
            format!(
                "office {} enters {:?}, h {}, answer of {}, {:?}, file {:02x?}",
                self.office, self.rows, self.h, self.answer_places, self.tables, self.file
            )
        };
        match expected {
            Ok((after, noted)) => {
                assert_eq!(code, 0, "{}", told());
                costs.expect(&after.costs, told);
                witnesses.expect(&after.witnesses, told);
                answer.expect(&[noted.entered as u32, noted.count as u32], told);
                // for the next call, what this one left
                let mut filled = self.tables.filled;
                filled[self.office as usize - 1] = answer.part()[1] as u64;
                let left = Tables {
                    costs: costs.part().to_vec(),
                    witnesses: witnesses.part().to_vec(),
                    filled,
                };
                Ok((left, noted))
            }
            Err(number) => {
                assert_eq!(code, number, "{}", told());
                costs.expect(&[], told);
                witnesses.expect(&[], told);
                answer.expect(&[], told);
                Err(number)
            }
        }
    }
}

/// How often each thing came that is counted, and each code.
struct Tally {
    shapes: BTreeMap<&'static str, usize>,
    codes: [usize; 256],
}

impl Tally {
    fn new() -> Tally {
        Tally {
            shapes: BTreeMap::new(),
            codes: [0; 256],
        }
    }

    fn add(&mut self, shape: &'static str, is: bool) {
        *self.shapes.entry(shape).or_default() += usize::from(is);
    }

    fn code(&mut self, held: &Result<(Tables, Noted), u32>) {
        let code = held.as_ref().map_or_else(|&number| number, |_| 0);
        self.codes[code as usize] += 1;
    }

    /// Fails unless each of the codes came so often, and so did each of so many shapes.
    fn enough(&self, what: &str, codes: &[usize], shapes: usize, least: usize) {
        println!("{what}: {:?}", self.shapes);
        println!("{what} by code, 0 to 24: {:?}", &self.codes[..25]);
        println!("{what} with a short answer: {}", self.codes[255]);
        for &code in codes {
            assert!(self.codes[code] >= least, "too few: {code}");
        }
        assert_eq!(self.shapes.len(), shapes);
        for (shape, &count) in &self.shapes {
            assert!(count >= least, "too few: {shape}");
        }
    }

    /// Counts what an entry that passed check 11 came to, over the rows that were filled.
    fn entry(
        &mut self,
        (vector, path): &Kept,
        filled: &[Kept],
        held: &Result<(Tables, Noted), u32>,
    ) {
        let equal = filled.iter().find(|row| row.0 == *vector);
        let dominating = filled.iter().any(|row| dominates(&row.0, vector));
        let gone = |row: &&Kept| dominates(vector, &row.0);
        let gone = filled.iter().filter(gone).count();
        let less = filled.iter().filter(|row| row.0 < *vector).count();
        match held {
            Ok((_, noted)) if noted.entered => {
                self.add("entered in an empty half", filled.is_empty());
                self.add("entered, no row goes", gone == 0 && !filled.is_empty());
                self.add("entered, one row goes", gone == 1);
                self.add("entered, several rows go", gone > 1);
                self.add(
                    "entered, some rows go and some stay",
                    gone > 0 && noted.count > 1,
                );
                self.add("entered first of several", less == 0 && noted.count > 1);
                self.add(
                    "entered last of several",
                    less + 1 == noted.count && less > 0,
                );
                self.add(
                    "entered among smaller and greater ones",
                    less > 0 && less + 1 < noted.count,
                );
            }
            Ok(_) => {
                self.add("met by an equal vector", equal.is_some());
                self.add(
                    "met by an equal vector of another tree",
                    equal.is_some_and(|row| row.1 != *path),
                );
                self.add("met by a dominating vector", dominating);
            }
            Err(_) => {}
        }
    }
}

/// Every code that a call may return.
const CODES: [usize; 16] = [0, 1, 2, 3, 4, 5, 6, 7, 14, 8, 9, 10, 15, 11, 24, 255];

/// A network of at most so many nodes and rows, mostly one with a tree. Often what costs little in one criterion costs much
/// in the next, so that many vectors stand beside each other.
fn network(rng: &mut Rng, nodes: usize, rows: usize) -> Network {
    loop {
        let mut network = match rng.between(0, 5) {
            0 => draw::network_with_streets(rng, nodes, rows),
            1 | 2 => draw::network(rng, nodes, rows),
            _ => draw::network_with_states(rng, nodes, rows),
        };
        if network.k() > 1 && rng.once_in(2) {
            let most = rng.pick(&[1, 4, 20]);
            network.kinds[..2].fill(0);
            for row in &mut network.rows {
                row.costs[0] = rng.between(0, most) as u32;
                row.costs[1] = most as u32 - row.costs[0] + rng.between(0, 1) as u32;
                row.costs[2..].fill(rng.between(0, 1) as u32);
            }
        }
        let tree = draw::layout(rng, &network);
        let has_tree = trees::is_tree(&network, &tree) && trees::keeps_states(&network, &tree);
        if has_tree || rng.once_in(10) {
            return network;
        }
    }
}

/// What is wrong with a call besides its rows.
#[derive(Clone, Copy, PartialEq)]
enum Wrong {
    Nothing,
    Office,
    Height,
    Lengths,
    Counts,
    File,
    Answer,
}

/// A call as it is to be made: mostly nothing is wrong with it, and then its tables are those given.
struct Made {
    wrong: Wrong,
    file: Vec<u8>,
    office: u32,
    h: u64,
    tables: Tables,
    answer_places: usize,
}

impl Made {
    fn new(rng: &mut Rng, network: &Network, h: usize, tables: &Tables) -> Made {
        let mut made = Made {
            wrong: Wrong::Nothing,
            file: network.encode(),
            office: rng.between(1, 2) as u32,
            h: h as u64,
            tables: tables.clone(),
            answer_places: rng.pick(&[2, 2, 3, 7]),
        };
        if rng.once_in(6) {
            made.wrong = rng.pick(&[
                Wrong::Office,
                Wrong::Height,
                Wrong::Lengths,
                Wrong::Counts,
                Wrong::File,
                Wrong::File,
                Wrong::Answer,
            ]);
        }
        let (office, h) = (made.office, made.h);
        match made.wrong {
            Wrong::Nothing => {}
            Wrong::Office => {
                made.office = rng.pick(&[
                    0,
                    3,
                    4,
                    office + 256,
                    office + 65_536,
                    office | 1 << 31,
                    u32::MAX,
                ]);
            }
            Wrong::Height => {
                made.h = rng.pick(&[
                    0,
                    h - 1,
                    h + 1,
                    2 * h,
                    h | 1 << 32,
                    h | 1 << 61,
                    h | 1 << 62,
                    h | 1 << 63,
                    h | 3 << 62,
                    1 << 63,
                    u64::MAX,
                ]);
            }
            Wrong::Lengths => other_lengths(rng, network, &mut made.tables),
            Wrong::Counts => {
                let above = rng.pick(&[h + 1, 2 * h, h | 1 << 32, 1 << 63, u64::MAX]);
                made.tables.filled[rng.between(0, 1)] = above;
            }
            Wrong::File => made.file = damaged(network, rng),
            Wrong::Answer => made.answer_places = rng.between(0, 1),
        }
        made
    }

    fn hold(&self, rng: &mut Rng, rows: &[u16]) -> Result<(Tables, Noted), u32> {
        let call = Call {
            file: &self.file,
            rows,
            office: self.office,
            h: self.h,
            tables: &self.tables,
            answer_places: self.answer_places,
        };
        call.hold(rng)
    }
}

/// Makes one of the tables, or both, shorter or longer: by a place, a row, or a half.
fn other_lengths(rng: &mut Rng, network: &Network, tables: &mut Tables) {
    let which = rng.between(0, 2);
    if which != 0 {
        let places = tables.costs.len();
        let by = rng.pick(&[1, network.k(), places / 2]);
        let longer = places + by;
        tables.costs.resize(rng.pick(&[places - by, longer]), 5);
    }
    if which != 1 {
        let places = tables.witnesses.len();
        let by = rng.pick(&[1, network.width(), places / 2]);
        let longer = places + by;
        tables.witnesses.resize(rng.pick(&[places - by, longer]), 5);
    }
}

/// Counts which check a call with something wrong stopped at.
fn count_wrong(tally: &mut Tally, wrong: Wrong, held: &Result<(Tables, Noted), u32>) {
    let refused = held.as_ref().err().copied();
    for (of, shape, before) in [
        (
            Wrong::Office,
            "11 for the office",
            "8 to 15 before the office",
        ),
        (Wrong::Height, "11 for h", "8 to 15 before h"),
        (
            Wrong::Lengths,
            "11 for the lengths",
            "8 to 15 before the lengths",
        ),
        (
            Wrong::Counts,
            "11 for the counts",
            "8 to 15 before the counts",
        ),
    ] {
        if of == wrong {
            tally.add(shape, refused == Some(11));
            tally.add(before, matches!(refused, Some(8 | 9 | 10 | 15)));
        }
    }
}

/// How many sequences there are, and how many at the least must come of everything that is counted.
const SEQUENCES: u64 = 20_000;
const ENOUGH: usize = 100;

#[test]
fn seeded_sequences() {
    let mut tally = Tally::new();
    let mut calls = 0;
    for seed in 0..SEQUENCES {
        calls += sequence(seed, &mut tally);
    }
    println!("{SEQUENCES} sequences, {calls} calls");
    tally.enough("sequences", &CODES, 24, ENOUGH);
}

/// A sequence of entries from an empty table, each call handed what the last left; returns how many calls there were.
fn sequence(seed: u64, tally: &mut Tally) -> usize {
    let rng = &mut Rng::new(seed);
    let network = network(rng, 7, 14);
    let (k, width) = (network.k(), network.width());
    let h = rng.between(1, 6);
    let mut tables = Tables {
        costs: (0..2 * h * k).map(|_| rng.word() as u32).collect(),
        witnesses: (0..2 * h * width).map(|_| rng.word() as u16).collect(),
        filled: [0, 0],
    };
    let mut offices = [Office::default(), Office::default()];
    let mut full = [false; 2];
    let calls = rng.between(1, 20);
    for _ in 0..calls {
        let drawn = match rng.once_in(6) {
            true => draw::rows(rng, &network),
            false => draw::layout(rng, &network),
        };
        let made = Made::new(rng, &network, h, &tables);
        let held = made.hold(rng, &drawn);
        tally.code(&held);
        count_wrong(tally, made.wrong, &held);
        if made.wrong != Wrong::Nothing {
            // only a damaged file may be a file of another network, and its call is then none of the sequence
            assert!(held.is_err() || made.wrong == Wrong::File);
            continue;
        }

        let (x, other) = (made.office as usize - 1, 2 - made.office as usize);
        let entry = offices::entry(&made.file, &drawn);
        if let Ok(entry) = &entry {
            tally.entry(entry, &offices[x].rows(), &held);
            let met_there = |row: &Kept| row.0 == entry.0 || dominates(&row.0, &entry.0);
            let there = offices[other].rows().iter().any(met_there);
            let came = |entered| held.as_ref().is_ok_and(|(_, n)| n.entered == entered);
            tally.add(
                "entered, and the other half would meet it",
                came(true) && there,
            );
            tally.add("met, and the other half would not", came(false) && !there);
            tally.add("met after 24", came(false) && full[x]);
            tally.add("entered after 24", came(true) && full[x]);
            tally.add("24 after 24", held == Err(24) && full[x]);
            full[x] |= held == Err(24);
        }

        // what the office by itself answers
        let own = entry.and_then(|entry| offices[x].offer(entry, h));
        assert_eq!(
            held.as_ref().map(|(_, noted)| *noted),
            own.as_ref().copied()
        );
        if let Ok((left, noted)) = held {
            let (was, is) = (tables.half(x, h, k, width), left.half(x, h, k, width));
            let unchanged = if noted.entered { noted.count } else { 0 };
            assert_eq!(is[unchanged..], was[unchanged..], "seed {seed}");
            let there = |tables: &Tables| tables.half(other, h, k, width);
            assert_eq!(there(&left), there(&tables), "seed {seed}");
            assert_eq!(left.filled[other], tables.filled[other]);
            tables = left;
        }
        for (x, office) in offices.iter().enumerate() {
            let mut filled = tables.half(x, h, k, width);
            filled.truncate(tables.filled[x] as usize);
            assert_eq!(filled, office.rows(), "seed {seed}, half {x}");
        }
    }
    calls
}

/// How many single calls there are.
const CALLS: u64 = 10_000;

/// A vector for a row of a table of any content, about the one that is to be entered.
fn any_vector(rng: &mut Rng, about: &[u32]) -> Vec<u32> {
    let near = |rng: &mut Rng, cost: u32| match rng.between(0, 3) {
        0 => cost.saturating_sub(1),
        1 => cost + 1,
        _ => cost,
    };
    match rng.between(0, 9) {
        0 => about.to_vec(),
        1 => about.iter().map(|_| rng.word() as u32).collect(),
        // it is dominated, or met
        2 | 3 => about
            .iter()
            .map(|&cost| cost + rng.between(0, 2) as u32)
            .collect(),
        // neither: one is smaller, and one is larger
        4..=7 if about.len() > 1 => {
            let mut vector: Vec<u32> = about.iter().map(|&cost| near(rng, cost)).collect();
            let smaller = rng.between(0, about.len() - 1);
            let larger = (smaller + rng.between(1, about.len() - 1)) % about.len();
            vector[smaller] = about[smaller].saturating_sub(rng.between(1, 3) as u32);
            vector[larger] = about[larger] + rng.between(1, 3) as u32;
            vector
        }
        8 => vec![u32::MAX; about.len()],
        _ => about.iter().map(|&cost| near(rng, cost)).collect(),
    }
}

/// Tables of rows in any sequence, some of them several times, with any row numbers, and any counts.
fn any_tables(rng: &mut Rng, h: usize, width: usize, about: &[u32]) -> Tables {
    let met_too = rng.once_in(3);
    let mut vectors: Vec<Vec<u32>> = Vec::new();
    while vectors.len() < 2 * h {
        let vector = match vectors.is_empty() || !rng.once_in(5) {
            true => any_vector(rng, about),
            false => vectors[rng.between(0, vectors.len() - 1)].clone(),
        };
        if met_too || !(vector == about || dominates(&vector, about)) {
            vectors.push(vector);
        }
    }
    let count = |rng: &mut Rng| match rng.once_in(2) {
        true => h as u64,
        false => rng.between(0, h) as u64,
    };
    Tables {
        costs: vectors.concat(),
        witnesses: (0..2 * h * width).map(|_| rng.word() as u16).collect(),
        filled: [count(rng), count(rng)],
    }
}

/// Single calls over tables that no sequence of entries leaves.
#[test]
fn tables_of_any_content() {
    let mut tally = Tally::new();
    for seed in 0..CALLS {
        let rng = &mut Rng::new(seed | 1 << 40);
        let (nodes, rows) = draw::sizes(rng);
        let network = network(rng, nodes, rows);
        let h = match rng.once_in(10) {
            true => rng.between(7, 60),
            false => rng.between(1, 6),
        };
        let drawn = match rng.once_in(10) {
            true => draw::rows(rng, &network),
            false => draw::layout(rng, &network),
        };
        let entry = offices::entry(&network.encode(), &drawn);
        let about = match &entry {
            Ok((vector, _)) => vector.clone(),
            Err(_) => vec![7; network.k()],
        };
        let tables = any_tables(rng, h, network.width(), &about);
        let made = Made::new(rng, &network, h, &tables);
        let held = made.hold(rng, &drawn);
        tally.code(&held);
        if let (Wrong::Nothing, Ok(entry)) = (made.wrong, &entry) {
            let half = made.office as usize - 1;
            let mut filled = tables.half(half, h, network.k(), network.width());
            filled.truncate(tables.filled[half] as usize);
            tally.entry(entry, &filled, &held);
            let pairs = || (1..filled.len()).flat_map(|i| (0..i).map(move |j| (j, i)));
            let some = |test: fn(&[u32], &[u32]) -> bool| {
                pairs().any(|(i, j)| test(&filled[i].0, &filled[j].0))
            };
            let entered = held.as_ref().is_ok_and(|(_, noted)| noted.entered);
            tally.add("entered in unordered rows", entered && some(|v, w| v > w));
            tally.add("entered in repeated rows", entered && some(|v, w| v == w));
            tally.add(
                "entered where a row dominates another",
                entered && some(dominates),
            );
            tally.add(
                "24 in unordered rows",
                held == Err(24) && some(|v, w| v > w),
            );
            tally.add("24 in a half of one row", held == Err(24) && h == 1);
            tally.add("entered in a long half", entered && h > 6);
            tally.add(
                "entered in a network of 32 nodes",
                entered && network.n == 32,
            );
        }
    }
    tally.enough(
        "tables of any content",
        &[0, 8, 9, 10, 11, 15, 24, 255],
        18,
        ENOUGH / 2,
    );
}
