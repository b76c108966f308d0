//! Tree by number, as linked from the proved library, held to document 02, #114: worked calls first, every spacing over one list,
//! lists that nobody can walk, then seeded networks against independent code, with indexes as they were built and damaged
//! ones. Every buffer is compared whole after every call, the file and the index too.

use std::collections::BTreeMap;
use std::time::{Duration, Instant};

use planner_tests::damage::damaged;
use planner_tests::draw;
use planner_tests::ffi::{self, SHORT_ANSWER};
use planner_tests::file::{network_a, Network, BARRED, MUST, OPEN};
use planner_tests::index_damage::{At, DAMAGES};
use planner_tests::indexes::{self, Fetched, Numbered};
use planner_tests::lent::Lent;
use planner_tests::rng::Rng;
use planner_tests::seen::Seen;
use planner_tests::shapes::{complete, dense, grid, line, petersen, with_rows};
use planner_tests::trees;
use planner_tests::walk::Graph;

/// A file, and what it holds.
#[derive(Clone, Copy)]
struct Read<'a> {
    file: &'a [u8],
    held: &'a Result<Numbered, u32>,
}

/// One call that builds, with so many places of the index and of the answer.
struct Build<'a> {
    of: Read<'a>,
    spacing: u32,
    places: usize,
    answer_places: usize,
}

impl Build<'_> {
    /// Makes the call and holds it to the independent code; returns what it must come to: the whole buffer, or the number.
    fn hold(&self, rng: &mut Rng) -> Result<Vec<u16>, u32> {
        let mut file = Lent::holding(self.of.file, || rng.byte());
        let mut index = Lent::new(self.places, || rng.word() as u16);
        let mut answer = Lent::new(self.answer_places, || rng.word() as u32);
        let code = ffi::index_build(file.part(), self.spacing, index.part(), answer.part());
        let expected = match indexes::build(self.of.held, self.spacing, self.places) {
            _ if self.answer_places < 1 => Err(SHORT_ANSWER),
            outcome => outcome,
        };
        let told = || {
            format!(
                "an index of spacing {}, {} and {} places, file {:02x?}",
                self.spacing, self.places, self.answer_places, self.of.file
            )
        };
        assert_eq!(code, *expected.as_ref().err().unwrap_or(&0), "{}", told());
        file.expect(&[], told);
        match &expected {
            Ok(entries) => {
                let width = self.of.held.as_ref().unwrap().network.width();
                index.expect(entries, told);
                answer.expect(&[(entries.len() / width) as u32], told);
            }
            Err(_) => {
                index.expect(&[], told);
                answer.expect(&[], told);
            }
        }
        expected.map(|_| index.part().to_vec())
    }
}

/// One call that fetches, with so many places of the buffer and of the answer.
struct Fetch<'a> {
    of: Read<'a>,
    spacing: u32,
    index: &'a [u16],
    /// what stands behind the part that is handed over as the index, and may not be read
    behind: &'a [u16],
    tree: u64,
    places: usize,
    answer_places: usize,
}

impl<'a> Fetch<'a> {
    /// A call that is lent as many places as it needs.
    fn new(of: Read<'a>, spacing: u32, index: &'a [u16], tree: u64) -> Fetch<'a> {
        let width = |held: &Numbered| held.network.width();
        Fetch {
            of,
            spacing,
            index,
            behind: &[],
            tree,
            places: of.held.as_ref().map_or(0, width),
            answer_places: 1,
        }
    }

    /// Makes the call and holds it to the independent code; returns what it must come to.
    fn hold(&self, rng: &mut Rng) -> Result<Fetched<'a>, u32> {
        let mut file = Lent::holding(self.of.file, || rng.byte());
        let mut behind = self.behind.iter().copied();
        let mut index = Lent::holding(self.index, || {
            behind.next().unwrap_or_else(|| rng.word() as u16)
        });
        let mut buffer = Lent::new(self.places, || rng.word() as u16);
        let mut answer = Lent::new(self.answer_places, || rng.word() as u32);
        let code = ffi::index_fetch(
            file.part(),
            self.spacing,
            index.part(),
            self.tree,
            buffer.part(),
            answer.part(),
        );
        let expected = match indexes::fetch(
            self.of.held,
            self.spacing,
            self.index,
            self.tree,
            self.places,
        ) {
            _ if self.answer_places < 1 => Err(SHORT_ANSWER),
            outcome => outcome,
        };
        let told = || {
            format!(
                "tree {} by {:?} of spacing {}, {} and {} places, file {:02x?}",
                self.tree, self.index, self.spacing, self.places, self.answer_places, self.of.file
            )
        };
        assert_eq!(code, expected.err().unwrap_or(0), "{}", told());
        file.expect(&[], told);
        index.expect(&[], told);
        match expected {
            Ok(fetched) => {
                buffer.expect(fetched.tree, told);
                answer.expect(&[fetched.moves], told);
            }
            Err(_) => {
                buffer.expect(&[], told);
                answer.expect(&[], told);
            }
        }
        expected
    }
}

/// A buffer of so many places with the index, and how many trees it holds.
fn build(network: &Network, spacing: u32, places: usize) -> Result<(Vec<u16>, u32), u32> {
    let mut index = vec![77; places];
    let mut answer = [77];
    match ffi::index_build(&network.encode(), spacing, &mut index, &mut answer) {
        0 => Ok((index, answer[0])),
        number => {
            assert!(index.iter().all(|&row| row == 77) && answer == [77]);
            Err(number)
        }
    }
}

/// A buffer of so many places with the tree, and the moves.
fn fetch(
    network: &Network,
    spacing: u32,
    index: &[u16],
    tree: u64,
    places: usize,
) -> Result<(Vec<u16>, u32), u32> {
    let mut buffer = vec![77; places];
    let mut answer = [77];
    let file = network.encode();
    match ffi::index_fetch(&file, spacing, index, tree, &mut buffer, &mut answer) {
        0 => Ok((buffer, answer[0])),
        number => {
            assert!(buffer.iter().all(|&row| row == 77) && answer == [77]);
            Err(number)
        }
    }
}

/// Network A's list is 0 2, 0 3, 1 2, 1 3, 2 3.
#[test]
fn network_a_of_document_01() {
    let a = network_a();
    let all = [0, 2, 0, 3, 1, 2, 1, 3, 2, 3];
    assert_eq!(build(&a, 1, 10), Ok((all.to_vec(), 5)));
    assert_eq!(build(&a, 2, 6), Ok((vec![0, 2, 1, 2, 2, 3], 3)));
    assert_eq!(build(&a, 3, 5), Ok((vec![0, 2, 1, 3, 77], 2)));
    assert_eq!(build(&a, 4, 4), Ok((vec![0, 2, 2, 3], 2)));
    for spacing in [5, 6, 999, 1_000] {
        assert_eq!(build(&a, spacing, 2), Ok((vec![0, 2], 1)));
        assert_eq!(build(&a, spacing, 1), Err(11));
    }
    for (t, tree) in (0..).zip(all.chunks(2)) {
        for spacing in 1..8 {
            let (index, _) = build(&a, spacing, 10).unwrap();
            let moves = t as u32 % spacing;
            let fetched = fetch(&a, spacing, &index, t, 2);
            assert_eq!(fetched, Ok((tree.to_vec(), moves)), "{t} by {spacing}");
        }
    }
    // the same entries by another spacing: tree 7 is two moves behind the second entry, tree 9 one behind the third
    let index = [0, 2, 0, 3, 1, 2];
    assert_eq!(fetch(&a, 5, &index, 7, 2), Ok((vec![1, 3], 2)));
    assert_eq!(fetch(&a, 4, &index, 9, 3), Ok((vec![1, 3, 77], 1)));
    assert_eq!(fetch(&a, 4, &index, 10, 3), Ok((vec![2, 3, 77], 2)));
    assert_eq!(fetch(&a, 4, &index, 11, 3), Err(26));
    assert_eq!(fetch(&a, 4, &index, 12, 3), Err(26));
}

/// 26 for the spacing, then 12, then 11.
#[test]
fn the_first_check_of_a_build() {
    let a = network_a();
    let mut apart = network_a();
    apart.rows.truncate(2);
    let cycle = network_a().with_states(&[MUST, MUST, OPEN, OPEN]);
    let barred = network_a().with_states(&[BARRED, BARRED, OPEN, BARRED]);
    let none = with_rows(2, &[]);
    for spacing in [0, 1_001, 1_024, 65_537, 1 << 31, (1 << 31) + 1, u32::MAX] {
        for network in [&a, &apart, &cycle, &barred, &none] {
            for places in [0, 1, 100] {
                assert_eq!(build(network, spacing, places), Err(26), "{spacing}");
            }
        }
    }
    for spacing in [1, 2, 999, 1_000] {
        for network in [&apart, &cycle, &barred, &none] {
            for places in [0, 1, 100] {
                assert_eq!(build(network, spacing, places), Err(12));
            }
        }
    }
    for (spacing, needed) in [(1, 10), (2, 6), (3, 4), (4, 4), (5, 2), (1_000, 2)] {
        for places in 0..13 {
            let built = build(&a, spacing, places);
            assert_eq!(built.err(), (places < needed).then_some(11));
        }
    }
    let file = a.encode();
    assert_eq!(ffi::index_build(&[], 0, &mut [], &mut []), SHORT_ANSWER);
    assert_eq!(ffi::index_build(&file, 0, &mut [], &mut []), SHORT_ANSWER);
    assert_eq!(ffi::index_build(&[], 0, &mut [], &mut [7]), 1);
    assert_eq!(ffi::index_build(&file[..9], 0, &mut [], &mut [7]), 2);
}

/// 26 for the spacing, 11, 26 where there is no entry, then 9, 10, 15 and 13 of the entry, 26 where the list ends.
#[test]
fn the_first_check_of_a_fetch() {
    let network = network_a().with_states(&[BARRED, OPEN, OPEN, MUST]);
    // the list is 1 3, 2 3
    let entries: [(&[u16], u32); 11] = [
        (&[4, 4], 9),
        (&[0, 260], 9),
        (&[65_535, 3], 9),
        (&[3, 3], 10),
        (&[0, 1], 10),
        (&[0, 2], 15),
        (&[3, 0], 15),
        (&[2, 1], 15),
        (&[3, 1], 13),
        (&[3, 2], 13),
        (&[1, 3], 0),
    ];
    for (entry, number) in entries {
        for spacing in [0, 1_001, u32::MAX] {
            assert_eq!(fetch(&network, spacing, entry, 0, 0), Err(26));
        }
        for spacing in [2, 3, 1_000] {
            let call = |index, tree, places| fetch(&network, spacing, index, tree, places).err();
            let some = |number| (number != 0).then_some(number);
            for places in 0..2 {
                assert_eq!(call(entry, 0, places), Some(11));
                assert_eq!(call(&[], 0, places), Some(11));
                assert_eq!(call(entry, u64::MAX, places), Some(11));
            }
            for places in 2..4 {
                assert_eq!(call(entry, 0, places), some(number));
                assert_eq!(call(entry, 1, places), some(number));
                // the list ends before tree 2
                let ends = if number == 0 { 26 } else { number };
                assert_eq!(
                    call(entry, 2, places),
                    Some(if spacing == 2 { 26 } else { ends })
                );
                // no whole entry
                assert_eq!(call(&entry[..1], 0, places), Some(26));
                assert_eq!(call(&[], 0, places), Some(26));
                for tree in [spacing as u64, 1 << 32, 1 << 63, u64::MAX - 1, u64::MAX] {
                    assert_eq!(call(entry, tree, places), Some(26));
                }
            }
        }
    }
    let file = network.encode();
    assert_eq!(
        ffi::index_fetch(&[], 0, &[], 0, &mut [], &mut []),
        SHORT_ANSWER
    );
    assert_eq!(
        ffi::index_fetch(&file, 2, &[1, 3], 0, &mut [7, 7], &mut []),
        SHORT_ANSWER
    );
    assert_eq!(ffi::index_fetch(&[], 0, &[], 0, &mut [], &mut [7]), 1);
    assert_eq!(
        ffi::index_fetch(&file[..9], 0, &[], 0, &mut [], &mut [7]),
        2
    );
}

/// A fetch has no 12: where the network has no tree, the entry is asked.
#[test]
fn fetches_where_there_is_no_tree() {
    let mut apart = network_a();
    apart.rows.truncate(2);
    let cycle = network_a().with_states(&[MUST, MUST, OPEN, OPEN]);
    let barred = network_a().with_states(&[BARRED, BARRED, OPEN, BARRED]);
    let none = with_rows(2, &[]);
    for (network, entry, number) in [
        (&apart, &[0, 2][..], 9),
        (&apart, &[0, 1], 10),
        (&cycle, &[0, 1], 10),
        (&cycle, &[0, 2], 15),
        (&cycle, &[2, 0], 15),
        (&barred, &[2, 3], 15),
        (&none, &[0], 9),
    ] {
        for tree in [0, 1, 999] {
            assert_eq!(fetch(network, 1_000, entry, tree, 2), Err(number));
            assert_eq!(fetch(network, 1_000, entry, tree + 1_000, 2), Err(26));
            assert_eq!(fetch(network, 1_000, entry, tree, 0), Err(11));
        }
    }
}

/// Numbers of trees at which something ends or begins, of a list of so many trees and an index of this spacing with entries of
/// this width: the list, the first entries and the last, the trees that a move goes over at a time, and what wraps in 32 and 64
/// bits.
fn edges(trees: u64, spacing: u64, width: u64) -> Vec<u64> {
    let s = spacing.max(1);
    let entries = trees.div_ceil(s);
    let mut edges = vec![0, 1, u64::MAX, u64::MAX - 1, 1 << 63, (1 << 63) - 1];
    for at in [
        s,
        2 * s,
        trees,
        64,
        128,
        entries.max(1) * s - s,
        entries * s,
    ] {
        edges.extend([at.saturating_sub(1), at, at + 1]);
    }
    // the entry's number, or its first place, with low bits of another
    edges.extend([1 << 32, (1 << 32) * s, (1 << 32) * s + 1]);
    let wraps = (u64::MAX / width).checked_add(1);
    edges.extend(wraps.and_then(|entry| entry.checked_mul(s)));
    edges
}

/// The Petersen graph's list has 2,000 trees: by every spacing the index has two entries or more.
#[test]
fn every_spacing_over_one_list() {
    let rng = &mut Rng::new(114);
    let file = petersen().encode();
    let held = Numbered::read(&file);
    let list = &held.as_ref().unwrap().list;
    assert_eq!(list.len(), 2_000);
    let of = Read {
        file: &file,
        held: &held,
    };
    let (mut fetched, mut refused) = (0, 0);
    for spacing in 1..=1_000 {
        let needed = list.len().div_ceil(spacing as usize) * 9;
        let call = |places| Build {
            of,
            spacing,
            places,
            answer_places: 1,
        };
        assert_eq!(call(needed - 1).hold(rng), Err(11));
        let index = call(needed).hold(rng).unwrap();
        for tree in edges(2_000, spacing as u64, 9) {
            match Fetch::new(of, spacing, &index, tree).hold(rng) {
                Ok(reached) => {
                    assert_eq!(reached.tree, list[tree as usize]);
                    assert_eq!(reached.moves, tree as u32 % spacing);
                    fetched += 1;
                }
                Err(number) => {
                    assert!(number == 26 && tree >= 2_000);
                    refused += 1;
                }
            }
        }
    }
    println!("1,000 spacings, {fetched} trees fetched, {refused} fetches refused");
}

/// Every tree of a list and those behind its end: plain, with states, with rows beside each other, and where the list ends with
/// its last entry.
#[test]
fn every_tree_of_a_list() {
    let rng = &mut Rng::new(115);
    let states = [MUST, OPEN, OPEN, OPEN, BARRED, OPEN, OPEN, BARRED];
    let networks = [
        petersen(),
        petersen().with_states(&states),
        line(&[3, 4, 1, 5, 2]),
        complete(5),
    ];
    let mut fetched = 0;
    for network in networks {
        let file = network.encode();
        let held = Numbered::read(&file);
        let list = &held.as_ref().unwrap().list;
        let of = Read {
            file: &file,
            held: &held,
        };
        for spacing in [1, 2, 3, 25, 63, 64, 65, 200, 999, 1_000] {
            let index = held.as_ref().unwrap().index(spacing);
            for tree in 0..list.len() + spacing + 1 {
                let reached = Fetch::new(of, spacing as u32, &index, tree as u64).hold(rng);
                let expected = list.get(tree).ok_or(26);
                assert_eq!(
                    reached.map(|reached| reached.tree),
                    expected.map(Vec::as_slice)
                );
                fetched += expected.is_ok() as usize;
            }
        }
    }
    println!("{fetched} trees fetched");
}

/// The plain walk that the benchmark fetches by: from a tree of the list on, some trees or to the end.
#[test]
fn the_plain_walk_from_a_tree_on() {
    let states = [MUST, OPEN, OPEN, OPEN, BARRED, OPEN, OPEN, BARRED];
    for network in [
        petersen(),
        petersen().with_states(&states),
        line(&[3, 4, 1, 5, 2]),
    ] {
        let graph = Graph::new(&network);
        let list = trees::list(&network);
        for (number, tree) in list.iter().enumerate() {
            for trees in [1, 5, list.len()] {
                let behind = &list[number + 1..];
                let mut walked = Vec::new();
                graph.walk_behind(tree, &mut |tree| {
                    walked.push(tree.to_vec());
                    walked.len() < trees
                });
                assert_eq!(walked, behind[..trees.min(behind.len())]);
            }
        }
    }
}

/// Lists of more than 10^20 trees, which nobody can walk: that the index does not fit is known after the trees that it has room
/// for, and trees are fetched as Page lists them.
#[test]
fn lists_that_nobody_can_walk() {
    for (network, trees) in [
        (complete(22), 22f64.powi(20)),
        (complete(23), 23f64.powi(21)),
        (dense(32), trees::count(&dense(32))),
    ] {
        assert!(trees > 1e20);
        let width = network.width();
        for places in [0, width - 1, width, 10 * width, 11 * width - 1] {
            let begun = Instant::now();
            assert_eq!(build(&network, 1_000, places), Err(11));
            let took = begun.elapsed();
            println!("{trees:.1e} trees, {places} places: refused after {took:?}");
            assert!(took < Duration::from_secs(1), "{took:?}");
        }
        let file = network.encode();
        let mut page = vec![0; 3_000 * width];
        let mut answer = [0; 2];
        assert_eq!(ffi::page(&file, &mut page, &[], &mut answer), 0);
        assert_eq!(answer, [3_000, 1]);
        let list: Vec<&[u16]> = page.chunks(width).collect();
        for spacing in [1, 2, 64, 65, 999, 1_000] {
            let index = list.iter().step_by(spacing).copied().collect::<Vec<_>>();
            let index = index.concat();
            let rng = &mut Rng::new(spacing as u64);
            let any = rng.between(0, 2_999);
            for tree in [0, 1, 63, 64, 65, 998, 999, 1_000, 1_999, 2_999, any] {
                let fetched = fetch(&network, spacing as u32, &index, tree as u64, width);
                let moves = (tree % spacing) as u32;
                assert_eq!(fetched, Ok((list[tree].to_vec(), moves)));
            }
        }
    }
}

/// Long lists whose index fits, against the plain walk.
#[test]
fn long_lists_that_fit() {
    for (network, trees, spacing) in [
        (complete(8), 262_144, 1_000),
        (complete(8), 262_144, 512),
        (grid(4, 4), 100_352, 7),
        (complete(7), 16_807, 1),
    ] {
        let width = network.width();
        let mut index: Vec<u16> = Vec::new();
        let mut walked: usize = 0;
        Graph::new(&network).walk(&mut |tree| {
            if walked.is_multiple_of(spacing) {
                index.extend(tree);
            }
            walked += 1;
        });
        assert_eq!(walked, trees);
        let entries = walked.div_ceil(spacing);
        assert_eq!(index.len(), entries * width);
        assert_eq!(build(&network, spacing as u32, index.len() - 1), Err(11));
        let built = build(&network, spacing as u32, index.len());
        assert!(built == Ok((index, entries as u32)), "{trees} by {spacing}");
    }
}

/// How many seeded networks there are, and how many at the least must come of everything that is counted.
const NETWORKS: u64 = 10_000;
const ENOUGH: usize = 100;

/// The calls of one kind: how many, by code and by spacing, and what else came.
struct Tally {
    calls: usize,
    codes: [usize; 256],
    answered: Vec<usize>,
    seen: Seen,
}

impl Tally {
    fn new() -> Tally {
        Tally {
            calls: 0,
            codes: [0; 256],
            answered: vec![0; 1_001],
            seen: Seen::default(),
        }
    }

    fn note(&mut self, code: u32, spacing: u32) {
        self.calls += 1;
        self.codes[code as usize] += 1;
        if code == 0 {
            self.answered[spacing as usize] += 1;
        }
    }

    /// Every code came, and everything else, and often; every spacing was answered.
    fn enough(&self, name: &str, codes: &[usize]) {
        println!("{name}: {} calls", self.calls);
        println!("by code, 0 to 26: {:?}", &self.codes[..27]);
        println!("with a short answer: {}", self.codes[255]);
        for &code in codes {
            assert!(self.codes[code] >= ENOUGH, "{name}, too few: {code}");
        }
        let others = (0..256).filter(|code| !codes.contains(code));
        assert!(others.into_iter().all(|code| self.codes[code] == 0));
        self.seen.enough(ENOUGH);
        let least = self.answered[1..].iter().min().unwrap();
        println!("{least:6} answers at the least of every spacing of 1 to 1,000");
        assert!(*least > 0);
    }
}

/// A network of any kind, few of them with a long list.
fn some_network(rng: &mut Rng) -> Network {
    match rng.between(0, 19) {
        0 => {
            let (n, m) = (rng.between(5, 7), rng.between(12, 16));
            Network::random(rng, n, m, 1)
        }
        1 | 2 => draw::network(rng, 3, 6),
        3..=8 => draw::network(rng, 7, 15),
        9..=14 => draw::network_with_states(rng, 7, 15),
        _ => draw::network_with_few_states(rng, 7, 15),
    }
}

/// A spacing about the length of the list, one at the limits or out of range, or any.
fn some_spacing(trees: usize, rng: &mut Rng) -> u32 {
    let trees = trees as u32;
    let any = rng.between(1, 1_000) as u32;
    match rng.between(0, 4) {
        0 => rng.pick(&[1, 2, 3, 7]),
        1 => rng.pick(&[
            trees.saturating_sub(1),
            trees,
            trees + 1,
            trees / 2,
            trees.div_ceil(2),
        ]),
        2 => rng.pick(&[0, 999, 1_000, 1_001, u32::MAX, any + 65_536, any | 1 << 31]),
        3 => rng.between(1, trees.clamp(1, 1_000) as usize) as u32,
        _ => any,
    }
}

fn has(network: &Network, state: u8) -> bool {
    network.rows.iter().any(|row| row.state == state)
}

fn beside(network: &Network) -> bool {
    let pair = |row: usize| {
        let [a, b] = network.rows[row].ends;
        [a.min(b), a.max(b)]
    };
    (0..network.m()).any(|row| (0..row).any(|other| pair(other) == pair(row)))
}

/// Builds with places of every kind; returns the index, with places to spare where it was built so.
fn builds(of: Read, spacing: u32, tally: &mut Tally, rng: &mut Rng) -> Option<Vec<u16>> {
    let held = of.held.as_ref();
    let in_range = (1..=1_000).contains(&spacing);
    let width = held.map_or(1, |held| held.network.width());
    let trees = held.map_or(0, |held| held.list.len());
    let entries = if in_range {
        trees.div_ceil(spacing as usize)
    } else {
        trees
    };
    let needed = entries * width;
    let any = rng.between(0, 2 * needed);
    let spare = needed + rng.between(1, 2 * width);
    let short = needed.saturating_sub(1);
    let entry_short = needed.saturating_sub(width);
    let mut kept = None;
    for places in [needed, spare, rng.pick(&[short, entry_short, 0, any]), any] {
        let answer_places = rng.pick(&[1, 1, 1, 1, 3, 3, 0]);
        let call = Build {
            of,
            spacing,
            places,
            answer_places,
        };
        let built = call.hold(rng);
        let code = *built.as_ref().err().unwrap_or(&0);
        tally.note(code, spacing);
        let seen = &mut tally.seen;
        let ok = code == 0;
        seen.note("built to the last place", ok && places == needed);
        seen.note("built with places to spare", ok && places > needed);
        seen.note("built, one entry", ok && entries == 1);
        seen.note("built, several entries", ok && entries > 1);
        seen.note("built, a list of s trees", ok && trees == spacing as usize);
        seen.note(
            "built, a list of s + 1 trees",
            ok && trees == spacing as usize + 1,
        );
        seen.note(
            "built, a list of s - 1 trees",
            ok && trees + 1 == spacing as usize,
        );
        seen.note(
            "built, the list ends with its last entry",
            ok && entries > 1 && trees % spacing as usize == 1,
        );
        seen.note(
            "built, the list ends before the next entry",
            ok && entries > 1 && trees.is_multiple_of(spacing as usize),
        );
        seen.note("built, a tree of one row", ok && width == 1);
        seen.note("built, an answer of 3 places", ok && answer_places == 3);
        for (at, name) in [
            (1, "spacing 1"),
            (2, "spacing 2"),
            (3, "spacing 3"),
            (7, "spacing 7"),
        ] {
            seen.note(name, ok && spacing == at);
        }
        seen.note("spacing 999", ok && spacing == 999);
        seen.note("spacing 1,000", ok && spacing == 1_000);
        if let Ok(held) = held {
            let network = &held.network;
            seen.note("built, version 1", ok && network.version == 1);
            seen.note("built, version 2", ok && network.version == 2);
            seen.note("built, a must row", ok && has(network, MUST));
            seen.note("built, a barred row", ok && has(network, BARRED));
            seen.note("built, rows beside each other", ok && beside(network));
            seen.note("11 by one place", code == 11 && places + 1 == needed);
            seen.note("11 by one entry", code == 11 && places + width == needed);
            seen.note("11 of an empty buffer", code == 11 && places == 0);
            seen.note("26 of 0", code == 26 && spacing == 0);
            seen.note("26 of 1,001", code == 26 && spacing == 1_001);
            seen.note(
                "26 of the greatest number",
                code == 26 && spacing == u32::MAX,
            );
            seen.note("26 before 12", code == 26 && trees == 0);
            seen.note("26 before 11", code == 26 && trees > 0 && places < width);
            seen.note("12 before 11", code == 12 && places == 0);
            seen.note(
                "12 of a must cycle",
                code == 12 && trees::must_cycle(network),
            );
        }
        seen.note("255 before the file's number", code == 255 && held.is_err());
        seen.note("255 before 26", code == 255 && held.is_ok() && !in_range);
        if ok {
            kept = built.ok();
        }
    }
    kept
}

/// An index of rows as somebody may draw them, for a network without a tree or one of its own.
fn any_index(network: &Network, rng: &mut Rng) -> Vec<u16> {
    let mut index = Vec::new();
    for _ in 0..rng.between(0, 3) {
        let mut rows = draw::rows(rng, network);
        rows.resize(network.width(), 0);
        index.extend(rows);
    }
    index
}

/// What comes of fetches with damaged indexes: by the damage and the code.
type Outcomes = BTreeMap<(&'static str, u32), usize>;

/// What of a fetch that passes the file's checks is counted.
fn note_fetch(call: &Fetch, held: &Numbered, expected: Result<Fetched, u32>, seen: &mut Seen) {
    let Numbered { network, list } = held;
    let width = network.width();
    let code = expected.err().unwrap_or(0);
    let in_range = (1..=1_000).contains(&call.spacing);
    let s = if in_range { call.spacing as u64 } else { 1 };
    let entry = indexes::entry(width, s as usize, call.index, call.tree);
    let trees = list.len() as u64;
    let short = call.places < width;
    seen.note("26 of the spacing", code == 26 && !in_range);
    seen.note(
        "26 of the spacing, before 11",
        code == 26 && !in_range && short,
    );
    seen.note("255 before 26 of the spacing", code == 255 && !in_range);
    if !in_range {
        return;
    }
    seen.note("11 of n - 2 places", code == 11 && call.places + 1 == width);
    seen.note("11 before 26 of no entry", code == 11 && entry.is_none());
    seen.note("26 of no entry", code == 26 && entry.is_none());
    let rest = (call.index.len() % width) as u64;
    let whole = (call.index.len() / width) as u64;
    seen.note(
        "26 of an entry in part",
        code == 26 && entry.is_none() && rest > 0 && call.tree / s == whole,
    );
    for (number, name) in [
        (u64::MAX, "26 of the greatest number"),
        (u64::MAX - 1, "26 of the greatest number but one"),
    ] {
        seen.note(name, code == 26 && call.tree == number);
    }
    if let Ok(fetched) = expected {
        let moves = fetched.moves as u64;
        seen.note("fetched, n - 1 places", call.places == width);
        seen.note("fetched, n places", call.places == width + 1);
        seen.note("fetched, an answer of 3 places", call.answer_places == 3);
        seen.note("fetched, no move", moves == 0);
        seen.note("fetched, s - 1 moves, several", moves > 1 && moves == s - 1);
        seen.note("fetched, 63 moves", moves == 63);
        seen.note("fetched, 64 moves", moves == 64);
        seen.note("fetched, 65 moves", moves == 65);
        seen.note("fetched, above 128 moves", moves > 128);
        seen.note(
            "fetched, from the second entry on",
            call.tree >= s && moves > 0,
        );
        seen.note("fetched, the first tree", call.tree == 0);
        seen.note("fetched, the last tree", call.tree + 1 == trees);
        seen.note("fetched, number s", call.tree == s);
        seen.note("fetched, number s + 1", call.tree == s + 1);
        seen.note("fetched, a number above the list's", call.tree >= trees);
        seen.note("fetched, version 1", network.version == 1);
        seen.note("fetched, a must row", has(network, MUST));
        seen.note("fetched, a barred row", has(network, BARRED));
        seen.note("fetched, rows beside each other", beside(network));
    }
    let Some(rows) = entry else {
        return;
    };
    let high = rows.iter().any(|&row| row as usize >= network.m());
    let twice = (1..width).any(|i| rows[..i].contains(&rows[i]));
    seen.note("11 before 9", code == 11 && high);
    seen.note("9 before 10", code == 9 && twice);
    seen.note("9 of m", code == 9 && rows.contains(&(network.m() as u16)));
    seen.note("9 of 65,535", code == 9 && rows.contains(&u16::MAX));
    if high {
        return;
    }
    let is = |state| move |&&row: &&u16| network.rows[row as usize].state == state;
    let barred = rows.iter().any(|row| is(BARRED)(&row));
    let musts = trees::rows_of(network, |state| state == MUST);
    let lacks = musts.iter().any(|must| !rows.contains(must));
    let joined = trees::is_tree(network, rows);
    let minimal = joined && trees::is_minimal(network, rows);
    seen.note("11 before 10", code == 11 && !joined);
    seen.note("10 of a row twice", code == 10 && twice);
    seen.note("10 of different rows", code == 10 && !twice);
    seen.note("10 before 15", code == 10 && (barred || lacks));
    seen.note("15 of a barred row alone", code == 15 && barred && !lacks);
    seen.note("15 of a must row alone", code == 15 && !barred && lacks);
    seen.note("15 before 13", code == 15 && !minimal);
    seen.note("11 before 15", code == 11 && joined && (barred || lacks));
    seen.note("10 where there is no tree", code == 10 && trees == 0);
    seen.note("15 where there is no tree", code == 15 && trees == 0);
    if !joined || barred || lacks {
        return;
    }
    let path = trees::minimal_path(network, rows);
    let at = list.iter().position(|tree| *tree == path).unwrap() as u64;
    let ends = at + call.tree % s >= trees;
    seen.note("11 before 13", code == 11 && !minimal);
    seen.note("13 before 26 of the list's end", code == 13 && ends);
    seen.note("13 of a tree in another sequence", code == 13 && !ends);
    seen.note("26 of the list's end", code == 26 && ends);
    seen.note(
        "26 of the list's end by one move",
        code == 26 && at + call.tree % s == trees,
    );
    seen.note(
        "11 before 26 of the list's end",
        code == 11 && minimal && ends,
    );
    seen.note(
        "255 before an answer",
        code == 255 && minimal && !short && !ends,
    );
}

/// Fetches of every kind from an index that was built, or from rows as somebody may draw them.
fn fetches(
    of: Read,
    spacing: u32,
    built: Option<&[u16]>,
    other: &[u16],
    (tally, outcomes): (&mut Tally, &mut Outcomes),
    rng: &mut Rng,
) {
    let held = of.held.as_ref();
    let width = held.map_or(1, |held| held.network.width());
    let trees = held.map_or(0, |held| held.list.len());
    let s = spacing.clamp(1, 1_000);
    let edges = edges(trees as u64, s as u64, width as u64);
    for _ in 0..12 {
        let tree = match rng.once_in(3) {
            true => rng.between(0, trees + 1) as u64,
            false => rng.pick(&edges),
        };
        let entry = tree / s as u64;

        // the index as it was built, with a damage or two, or something else
        let mut index = match (built, held) {
            (Some(index), _) => index.to_vec(),
            (None, Ok(held)) => any_index(&held.network, rng),
            (None, Err(_)) => vec![0; rng.between(0, 9)],
        };
        let whole = index.clone();
        let mut done = Vec::new();
        if let (Some(_), Ok(numbered)) = (built, held) {
            let at = At {
                numbered,
                spacing: s as usize,
                entry: entry.min(trees as u64) as usize,
                other,
            };
            let there = (at.entry + 1) * width <= index.len();
            for _ in 0..rng.pick(&[0, 0, 1, 1, 1, 2]) {
                let damage = &DAMAGES[rng.between(0, DAMAGES.len() - 1)];
                if there && (damage.damage)(&mut index, at, rng) {
                    done.push(damage);
                }
            }
        }

        let mut call = Fetch::new(of, spacing, &index, tree);
        call.behind = whole.get(index.len()..).unwrap_or(&[]);
        call.places = match rng.between(0, 11) {
            0 => rng.between(0, width - 1),
            1 => width - 1,
            2 | 3 => width + 1,
            4 => width + rng.between(1, 9),
            _ => width,
        };
        call.answer_places = rng.pick(&[1, 1, 1, 1, 1, 1, 1, 3, 3, 0]);
        let expected = call.hold(rng);
        let code = expected.err().unwrap_or(0);
        tally.note(code, spacing);
        let Ok(held) = held else {
            continue;
        };
        note_fetch(&call, held, expected, &mut tally.seen);

        // a call with nothing wrong but the damage
        let sound = spacing == s && call.places >= width && call.answer_places > 0;
        if sound && (tree as usize) < trees {
            match &done[..] {
                // given exactly the index that was built
                [] if built.is_some() => {
                    let fetched = expected.unwrap();
                    assert_eq!(fetched.tree, held.list[tree as usize]);
                    assert_eq!(fetched.moves, (tree % s as u64) as u32);
                    *outcomes.entry(("no damage", code)).or_default() += 1;
                }
                [damage] => {
                    let number = damage.number.unwrap_or(code);
                    assert_eq!(code, number, "{}", damage.name);
                    *outcomes.entry((damage.name, code)).or_default() += 1;
                }
                _ => {}
            }
        }
    }
}

#[test]
fn seeded_networks() {
    let (mut building, mut fetching) = (Tally::new(), Tally::new());
    let mut outcomes = Outcomes::new();
    let mut other: Vec<u16> = Vec::new();
    let (mut read, mut with_tree, mut listed, mut most) = (0, 0, 0, 0);
    for seed in 0..NETWORKS {
        let rng = &mut Rng::new(seed);
        let network = some_network(rng);
        let file = match rng.once_in(6) {
            true => damaged(&network, rng),
            false => network.encode(),
        };
        let held = Numbered::read(&file);
        let trees = held.as_ref().map_or(0, |held| held.list.len());
        read += held.is_ok() as usize;
        with_tree += (trees > 0) as usize;
        listed += trees;
        most = most.max(trees);
        let of = Read {
            file: &file,
            held: &held,
        };
        let mut spacings = vec![(seed % 1_000) as u32 + 1];
        spacings.extend((0..3).map(|_| some_spacing(trees, rng)));
        for spacing in spacings {
            let built = builds(of, spacing, &mut building, rng);
            let tallies = (&mut fetching, &mut outcomes);
            fetches(of, spacing, built.as_deref(), &other, tallies, rng);
            // what the next network is handed as an index of another
            if let Some(index) = built {
                other = index;
            }
        }
    }
    println!("{NETWORKS} files, {read} networks read, {with_tree} with a tree");
    println!("{listed} trees, the most {most}");
    let of_file = [1, 2, 3, 4, 5, 6, 7, 14];
    building.enough("build", &[&[0, 26, 12, 11, 255], &of_file[..]].concat());
    fetching.enough(
        "fetch",
        &[&[0, 26, 11, 9, 10, 15, 13, 255], &of_file[..]].concat(),
    );

    println!("fetches of trees of the list, by what was damaged:");
    for ((name, code), count) in &outcomes {
        println!("{count:6} {name}: {code}");
    }
    let of = |name| {
        let counts = outcomes.iter().filter(|((of, _), _)| *of == name);
        counts.map(|(_, count)| count).sum::<usize>()
    };
    assert!(of("no damage") >= ENOUGH);
    for damage in &DAMAGES {
        assert!(of(damage.name) >= ENOUGH, "too few: {}", damage.name);
    }
    // from another tree on, another spacing's or another network's index, a tree is reached, or the list ends
    for (name, codes) in [
        ("another tree of the list", &[0, 26][..]),
        ("the last tree of the list", &[0, 26]),
        ("an index of another spacing", &[0, 26]),
        ("an index of another network", &[0, 26, 9, 10, 13]),
        ("another row in one's place", &[0, 10, 13]),
    ] {
        for &code in codes {
            let count = outcomes.get(&(name, code)).copied().unwrap_or(0);
            assert!(count >= 20, "too few: {name}, {code}");
        }
    }
}
