//! Reach, Order, Cost and Pick, as linked from the proved library, held to documents 01 and 02: trials first, then seeded
//! networks and pages against the independent code, every buffer compared whole.

use std::collections::BTreeMap;

use planner_tests::damage::damaged;
use planner_tests::draw;
use planner_tests::ffi::{self, SHORT_ANSWER};
use planner_tests::file::{network_a, Network, Row, BARRED, MOST, MUST, OPEN};
use planner_tests::lent::{places, Lent};
use planner_tests::operations;
use planner_tests::rng::Rng;
use planner_tests::trees;

/// Reach with an answer of so many places; returns the code that it must have.
fn hold_reach(file: &[u8], places: usize, rng: &mut Rng) -> u32 {
    let mut answer = Lent::new(places, || rng.word() as u32);
    let code = ffi::reach(file, answer.part());
    let (expected, written) = match operations::reach(file) {
        _ if places < 2 => (SHORT_ANSWER, vec![]),
        Ok((word, size)) => (0, vec![word, size]),
        Err(number) => (number, vec![]),
    };
    let told = || format!("Reach, {places} places, {}", bytes(file));
    assert_eq!(code, expected, "{}", told());
    answer.expect(&written, told);
    expected
}

/// Order with a buffer of so many places; returns the code that it must have.
fn hold_order(file: &[u8], rows: &[u16], places: usize, rng: &mut Rng) -> u32 {
    let mut buffer = Lent::new(places, || rng.word() as u16);
    let code = ffi::order(file, rows, buffer.part());
    let (expected, written) = match operations::order(file, rows, places) {
        Ok(path) => (0, path),
        Err(number) => (number, vec![]),
    };
    let told = || format!("Order of {rows:?}, {places} places, {}", bytes(file));
    assert_eq!(code, expected, "{}", told());
    buffer.expect(&written, told);
    expected
}

/// Cost with a buffer of so many places; returns the code that it must have.
fn hold_cost(file: &[u8], rows: &[u16], places: usize, rng: &mut Rng) -> u32 {
    let mut buffer = Lent::new(places, || rng.word() as u32);
    let code = ffi::cost(file, rows, buffer.part());
    let (expected, written) = match operations::cost(file, rows, places) {
        Ok(vector) => (0, vector),
        Err(number) => (number, vec![]),
    };
    let told = || format!("Cost of {rows:?}, {places} places, {}", bytes(file));
    assert_eq!(code, expected, "{}", told());
    buffer.expect(&written, told);
    expected
}

/// Pick with so many places to copy to; returns the length that the part must have.
fn hold_pick(n: u32, page: &[u16], t: u64, places: usize, rng: &mut Rng) -> usize {
    let mut out = Lent::new(places, || rng.word() as u16);
    let length = ffi::pick(n, page, t, out.part());
    let part = operations::pick(n, page, t);
    let told = || format!("Pick {n} {t} of {page:?}, {places} places");
    assert_eq!(length, part.len() as u64, "{}", told());
    out.expect(&part[..part.len().min(places)], told);
    part.len()
}

fn bytes(file: &[u8]) -> String {
    format!("{} bytes: {file:02x?}", file.len())
}

/// Order's outcome with exactly enough places, or with so many.
fn order(network: &Network, rows: &[u16], places: usize) -> Result<Vec<u16>, u32> {
    let mut buffer = vec![0; places];
    match ffi::order(&network.encode(), rows, &mut buffer) {
        0 => Ok(buffer),
        number => Err(number),
    }
}

fn cost(network: &Network, rows: &[u16]) -> Result<Vec<u32>, u32> {
    let mut buffer = vec![0; network.k()];
    match ffi::cost(&network.encode(), rows, &mut buffer) {
        0 => Ok(buffer),
        number => Err(number),
    }
}

#[test]
fn trials_of_document_01() {
    let a = network_a();
    assert_eq!(order(&a, &[2, 0], 2), Ok(vec![0, 2]));
    assert_eq!(order(&a, &[3, 2], 2), Ok(vec![2, 3]));
    assert_eq!(order(&a, &[0, 1], 2), Err(10));
    assert_eq!(order(&a, &[0, 0], 2), Err(10));
    assert_eq!(order(&a, &[0], 2), Err(8));
    assert_eq!(order(&a, &[0, 4], 2), Err(9));
    assert_eq!(order(&a, &[2, 0], 1), Err(11));
    for (tree, vector) in [
        ([0, 2], [9, 7]),
        ([0, 3], [7, 7]),
        ([1, 2], [11, 5]),
        ([1, 3], [9, 6]),
        ([2, 3], [8, 6]),
    ] {
        assert_eq!(cost(&a, &tree), Ok(vector.to_vec()));
        assert_eq!(cost(&a, &[tree[1], tree[0]]), Ok(vector.to_vec()));
    }
    assert_eq!(reach(&a), [0b111, 3]);
}

/// A row number that is too high is 9 also where it stands twice, and a wrong number of rows is 8 whatever they are.
#[test]
fn the_first_check_of_drawn_rows_decides() {
    let a = network_a();
    assert_eq!(order(&a, &[4, 4], 0), Err(9));
    assert_eq!(order(&a, &[0, 0, 4], 0), Err(8));
    assert_eq!(order(&a, &[], 0), Err(8));
    assert_eq!(order(&a, &[0, 0], 0), Err(10));
    assert_eq!(order(&a, &[0, 260], 2), Err(9));
    let empty = Network {
        rows: vec![],
        ..network_a()
    };
    assert_eq!(order(&empty, &[], 2), Err(8));
    assert_eq!(order(&empty, &[0, 0], 2), Err(9));
    assert_eq!(cost(&empty, &[]), Err(8));
    assert_eq!(cost(&empty, &[0, 1]), Err(9));
}

fn reach(network: &Network) -> [u32; 2] {
    let mut answer = [0; 2];
    assert_eq!(ffi::reach(&network.encode(), &mut answer), 0);
    answer
}

/// Reach goes over the rows that are not barred, whatever must be dug.
#[test]
fn reach_with_states() {
    let a = network_a();
    for (states, answer) in [
        ([OPEN, OPEN, OPEN, OPEN], [0b111, 3]),
        ([MUST, MUST, MUST, MUST], [0b111, 3]),
        ([BARRED, BARRED, BARRED, BARRED], [0b001, 1]),
        ([BARRED, BARRED, OPEN, OPEN], [0b111, 3]),
        ([BARRED, OPEN, BARRED, OPEN], [0b111, 3]),
        ([OPEN, MUST, BARRED, BARRED], [0b011, 2]),
        ([BARRED, BARRED, MUST, BARRED], [0b101, 2]),
    ] {
        assert_eq!(reach(&a.clone().with_states(&states)), answer);
    }
}

/// A drawn tree that breaks a state is 15: after 8, 9 and 10, before 11, and also where no tree keeps the states.
#[test]
fn drawn_trees_that_break_a_state() {
    let a = network_a();
    let stated = |states: [u8; 4]| a.clone().with_states(&states);
    let b = stated([BARRED, OPEN, OPEN, MUST]);
    assert_eq!(order(&b, &[3, 1], 2), Ok(vec![1, 3]));
    assert_eq!(cost(&b, &[3, 1]), Ok(vec![9, 6]));
    // a barred row, a must row left out, both
    for rows in [[3, 0], [2, 1], [0, 2]] {
        assert_eq!(order(&b, &rows, 2), Err(15));
        assert_eq!(order(&b, &rows, 0), Err(15));
        assert_eq!(cost(&b, &rows), Err(15));
    }
    assert_eq!(order(&b, &[0, 1], 2), Err(10));
    assert_eq!(order(&b, &[0, 4], 2), Err(9));
    assert_eq!(order(&b, &[0], 2), Err(8));
    assert_eq!(order(&b, &[1, 3], 1), Err(11));
    // two parallel must rows, every row must, every row barred: no tree keeps the states
    for states in [[MUST, MUST, OPEN, OPEN], [MUST; 4], [BARRED; 4]] {
        let network = stated(states);
        for tree in [[0, 2], [0, 3], [1, 2], [1, 3], [2, 3]] {
            assert_eq!(order(&network, &tree, 2), Err(15));
            assert_eq!(cost(&network, &tree), Err(15));
        }
        assert_eq!(order(&network, &[0, 1], 2), Err(10));
    }
}

/// 32 nodes and 256 rows, the last of them at row number 255, and the greatest sum.
#[test]
fn the_largest_network() {
    // each row of the line in a street of its own
    let row = |a: u8, b: u8| Row::new([a, b], u16::MAX - a as u16, vec![MOST; 3]);
    let mut line: Vec<Row> = (1..32).map(|a| row(a, a + 1)).collect();
    let mut rows = vec![row(32, 31); 256 - line.len()];
    rows.append(&mut line);
    let network = Network::new(32, vec![0, 1, 2], rows);
    let path: Vec<u16> = (225..256).collect();
    let drawn: Vec<u16> = path.iter().rev().copied().collect();
    assert_eq!(order(&network, &drawn, 31), Ok(path.clone()));
    assert_eq!(
        cost(&network, &drawn),
        Ok(vec![31_000_000, MOST, 31_000_000])
    );
    assert_eq!(reach(&network), [u32::MAX, 32]);

    // the line must be dug, and all else is barred
    let mut states = vec![BARRED; 225];
    states.extend([MUST; 31]);
    let network = network.with_states(&states);
    assert_eq!(network.encode().len(), 9 + 3 + 256 * 17);
    assert_eq!(order(&network, &drawn, 31), Ok(path));
    assert_eq!(reach(&network), [u32::MAX, 32]);
    let mut beside = drawn.clone();
    beside[0] = 0;
    assert_eq!(order(&network, &beside, 31), Err(15));
}

/// How many seeded networks there are, and how many at the least must come of everything that is counted.
const NETWORKS: u64 = 30_000;
const ENOUGH: usize = 500;

/// What the seeded networks are, so that a generator that misses something is seen: how many there are of each shape.
#[derive(Debug, Default)]
struct Shapes(BTreeMap<&'static str, usize>);

impl Shapes {
    fn count(&mut self, network: &Network) {
        let connected = trees::reached(network).len() == network.n as usize;
        let touched = |node| network.rows.iter().any(|row| row.ends.contains(&node));
        let mut pairs: Vec<[u8; 2]> = network.rows.iter().map(|row| row.ends).collect();
        pairs.iter_mut().for_each(|pair| pair.sort());
        pairs.sort();
        self.add("with all nodes reached", connected);
        self.add("with nodes not reached", !connected);
        self.add("untouched nodes", !(1..=network.n).all(touched));
        self.add(
            "parallel rows",
            pairs.windows(2).any(|two| two[0] == two[1]),
        );
        self.add("all 32 nodes", network.n == 32);
        self.add("over 200 rows", network.m() > 200);
        if network.version == 2 {
            self.count_states(network, connected);
        }
    }

    fn count_states(&mut self, network: &Network, connected: bool) {
        let cycle = trees::must_cycle(network);
        let some = |state| network.rows.iter().any(|row| row.state == state);
        let every = |state| network.m() > 0 && network.rows.iter().all(|row| row.state == state);
        let plain = network.clone().with_states(&vec![OPEN; network.m()]);
        self.add(
            "must and barred rows, and a tree",
            some(MUST) && some(BARRED) && connected && !cycle,
        );
        self.add(
            "must rows with a cycle, all nodes reached",
            cycle && connected,
        );
        self.add("parallel must rows", parallel_musts(network));
        self.add(
            "barred bridges",
            !connected && trees::reached(&plain).len() == network.n as usize,
        );
        self.add("every row must", every(MUST));
        self.add("every row barred", every(BARRED));
    }

    fn add(&mut self, shape: &'static str, is: bool) {
        *self.0.entry(shape).or_default() += is as usize;
    }

    fn enough(&self) -> bool {
        self.0.values().all(|&count| count >= ENOUGH)
    }
}

fn parallel_musts(network: &Network) -> bool {
    let mut pairs: Vec<[u8; 2]> = network
        .rows
        .iter()
        .filter(|row| row.state == MUST)
        .map(|row| [row.ends[0].min(row.ends[1]), row.ends[0].max(row.ends[1])])
        .collect();
    pairs.sort();
    pairs.windows(2).any(|two| two[0] == two[1])
}

/// Reach, Order and Cost over networks that are made so; each of these checks must refuse many files, and each of those many
/// drawn rows.
fn seeded(make: impl Fn(&mut Rng) -> Network, of_files: &[usize], of_rows: &[usize]) {
    let mut shapes = Shapes::default();
    let mut of_reach = [0; 256];
    let mut of_order = [0; 16];
    let mut of_cost = [0; 16];
    for seed in 0..NETWORKS {
        let rng = &mut Rng::new(seed);
        let network = make(rng);
        shapes.count(&network);
        let file = match rng.between(0, 3) {
            0 => damaged(&network, rng),
            _ => network.encode(),
        };

        for _ in 0..3 {
            let answer = rng.pick(&[0, 1, 2, 2, 2, 3, 7]);
            of_reach[hold_reach(&file, answer, rng) as usize] += 1;
            let rows = draw::rows(rng, &network);
            let buffer = places(network.width(), rng);
            of_order[hold_order(&file, &rows, buffer, rng) as usize] += 1;
            let buffer = places(network.k(), rng);
            of_cost[hold_cost(&file, &rows, buffer, rng) as usize] += 1;
        }
    }
    println!("{NETWORKS} networks: {shapes:?}");
    println!("Reach by code, 0 to 14: {:?}", &of_reach[..15]);
    println!("Reach with a short answer: {}", of_reach[255]);
    println!("Order by code, 0 to 15: {of_order:?}");
    println!("Cost by code, 0 to 15: {of_cost:?}");
    assert!(shapes.enough());
    assert!(of_reach[0] >= ENOUGH && of_reach[255] >= ENOUGH);
    for &check in of_files {
        assert!(of_reach[check] >= ENOUGH, "Reach, too few: {check}");
    }
    for &check in [0].iter().chain(of_files).chain(of_rows) {
        assert!(of_order[check] >= ENOUGH, "Order, too few: {check}");
        assert!(of_cost[check] >= ENOUGH, "Cost, too few: {check}");
    }
}

#[test]
fn seeded_networks() {
    let make = |rng: &mut Rng| {
        let (nodes, rows) = draw::sizes(rng);
        draw::network(rng, nodes, rows)
    };
    seeded(make, &[1, 2, 3, 4, 5, 6, 7], &[8, 9, 10, 11]);
}

#[test]
fn seeded_networks_with_states() {
    let make = |rng: &mut Rng| {
        let (nodes, rows) = draw::sizes(rng);
        draw::network_with_states(rng, nodes, rows)
    };
    seeded(make, &[1, 2, 3, 4, 5, 6, 7, 14], &[8, 9, 10, 11, 15]);
}

#[test]
fn seeded_networks_with_streets() {
    let make = |rng: &mut Rng| {
        let (nodes, rows) = draw::sizes(rng);
        draw::network_with_streets(rng, nodes, rows)
    };
    seeded(make, &[1, 2, 3, 4, 5, 6, 7], &[8, 9, 10, 11]);
}

/// Every sequence of a tree's rows has the same path and the same vector.
#[test]
fn the_sequence_of_drawn_rows_has_no_say() {
    let mut trees = 0;
    for seed in 0..2_000 {
        let rng = &mut Rng::new(seed);
        let network = draw::network(rng, 32, 100);
        let mut rows = draw::forest(rng, &network);
        if rows.len() == network.width() {
            let path = order(&network, &rows, network.width());
            let vector = cost(&network, &rows);
            assert!(trees::is_minimal(&network, path.as_ref().unwrap()));
            for _ in 0..3 {
                rng.shuffle(&mut rows);
                assert_eq!(order(&network, &rows, network.width()), path);
                assert_eq!(cost(&network, &rows), vector);
            }
            trees += 1;
        }
    }
    assert!(trees >= ENOUGH);
}

#[test]
fn pick_on_seeded_pages() {
    let rng = &mut Rng::new(4);
    let mut parts = 0;
    let mut empty = 0;
    for _ in 0..100_000 {
        let n = match rng.between(0, 9) {
            0 => rng.pick(&[0, 1, 33, 34, 255]),
            // those that a byte would take for 2 or for 32
            1 => rng.pick(&[
                256,
                258,
                288,
                514,
                65_538,
                1 << 24 | 5,
                1 << 31 | 3,
                u32::MAX,
            ]),
            _ => rng.between(2, 32) as u32,
        };
        let width = n.clamp(2, 33) as usize - 1;
        let trees = rng.between(0, 6);
        let length = (trees * width + rng.between(0, 2)).saturating_sub(rng.between(0, 1));
        let page: Vec<u16> = (0..length).map(|_| rng.word() as u16).collect();
        let t = match rng.between(0, 9) {
            // those whose places a word of 64 bits would take for some at the start of the page
            0 => {
                let around = u64::MAX / width as u64;
                around
                    .wrapping_add(rng.between(0, 4) as u64)
                    .wrapping_sub(2)
            }
            1 => rng.pick(&[1 << 32, 1 << 61, 1 << 62, 1 << 63, u64::MAX - 1, u64::MAX]),
            _ => rng.between(0, trees + 2) as u64,
        };
        let places = rng.pick(&[0, 1, width - 1, width, width, width + 3]);
        match hold_pick(n, &page, t, places, rng) {
            0 => empty += 1,
            _ => parts += 1,
        }
    }
    println!("{parts} parts, {empty} empty ones");
    assert!(parts >= 20_000 && empty >= 20_000);
}
