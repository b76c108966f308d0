//! Count, as linked from the proved library, held to document 02, #112: known counts and networks about the limit first, then
//! seeded networks against their lists, by the library's pages and by the walk, and against a determinant. The answer and
//! the file are compared whole after every call.

use std::thread;
use std::time::{Duration, Instant};

use planner_tests::counts::{self, MOST_TREES, PRIMES};
use planner_tests::damage::damaged;
use planner_tests::draw;
use planner_tests::ffi::{self, SHORT_ANSWER};
use planner_tests::file::{mend_length, network_a, Network, Row, BARRED, MUST, NETWORK_A, OPEN};
use planner_tests::lent::Lent;
use planner_tests::operations;
use planner_tests::pages;
use planner_tests::rng::Rng;
use planner_tests::seen::Seen;
use planner_tests::shapes::{
    any_names, apart, bridged, chained, complete, dense, grid, joined, ladder, line,
    of_document_002, of_known_counts, petersen, regular, renamed, ring, wheel, with_rows,
};
use planner_tests::trees;
use planner_tests::walk::Graph;

/// What Count refuses by itself: more trees than it answers.
const TOO_MANY: u32 = 25;

/// One call over a file with an answer of so many places; returns what it must come to.
fn hold(file: &[u8], places: usize, rng: &mut Rng) -> Result<u32, u32> {
    let mut lent = Lent::holding(file, || rng.byte());
    let mut answer = Lent::new(places, || rng.word() as u32);
    let code = ffi::count(lent.part(), answer.part());
    let expected = match operations::count(file) {
        _ if places == 0 => Err(SHORT_ANSWER),
        outcome => outcome,
    };
    let told = || format!("Count, {places} places, {} bytes: {file:02x?}", file.len());
    assert_eq!(code, expected.err().unwrap_or(0), "{}", told());
    answer.expect(expected.ok().as_slice(), told);
    lent.expect(&[], told);
    expected
}

/// What Count comes to, held to the determinant.
fn count(network: &Network) -> Result<u32, u32> {
    hold(&network.encode(), 1, &mut Rng::new(network.m() as u64))
}

/// The length of the list, by the library's pages.
fn listed(network: &Network) -> u64 {
    let mut rows = 0;
    pages::each(network, 64, &mut |page| rows += page.len());
    (rows / network.width()) as u64
}

/// The length of the list, by the walk.
fn walked(network: &Network) -> u64 {
    let mut trees = 0;
    Graph::new(network).walk(&mut |_| trees += 1);
    trees
}

fn has(network: &Network, state: u8) -> bool {
    network.rows.iter().any(|row| row.state == state)
}

#[test]
fn network_a_of_document_01() {
    let a = network_a();
    assert_eq!(count(&a), Ok(5));
    for (states, trees) in [
        ([OPEN; 4], 5),
        ([BARRED, OPEN, OPEN, MUST], 2),
        ([MUST, OPEN, OPEN, OPEN], 2),
        ([OPEN, OPEN, MUST, OPEN], 3),
        ([OPEN, OPEN, OPEN, BARRED], 2),
        ([OPEN, OPEN, MUST, MUST], 1),
        ([MUST, OPEN, MUST, OPEN], 1),
        ([MUST, MUST, OPEN, OPEN], 0),
        ([MUST; 4], 0),
        ([BARRED; 4], 0),
    ] {
        assert_eq!(count(&a.clone().with_states(&states)), Ok(trees));
    }
}

/// n to the power n - 2. With 24 nodes and more a file has no room for all the rows, and holds as many as there may be.
#[test]
fn complete_graphs() {
    for n in 2..=11 {
        assert_eq!(count(&complete(n)), Ok((n as u32).pow(n as u32 - 2)));
    }
    assert_eq!(count(&complete(11)), Ok(2_357_947_691));
    for n in 12..=23 {
        assert_eq!(count(&complete(n)), Err(TOO_MANY));
    }
    for n in 24..=32 {
        assert_eq!(count(&complete(n)), Err(3));
        assert_eq!(dense(n).m(), 256);
        assert_eq!(count(&dense(n)), Err(TOO_MANY));
    }
}

#[test]
fn known_counts() {
    for (name, network, trees) in of_known_counts() {
        assert_eq!(count(&network), Ok(trees as u32), "{name}");
    }
}

/// Two rings with a spoke from each node of one to its own of the other.
fn prism(n: u8) -> Network {
    joined(n, |a, b| prism_row(n, a, b))
}

fn prism_row(n: u8, a: u8, b: u8) -> bool {
    let half = n / 2;
    let beside = b - a == 1 || b - a == half - 1;
    b - a == half || beside && (b <= half) == (a <= half)
}

/// A wheel with a node in each row of its rim.
fn gear(n: u8) -> Network {
    joined(n, |a, b| match a {
        1 => b % 2 == 0,
        _ => b == a + 1 || [a, b] == [2, n],
    })
}

/// The counts of table 7 in document 003, of the graphs that have at most 32 nodes and are soon described.
#[test]
fn counts_of_document_003() {
    let petersen = petersen();
    let in_petersen = |a, b| petersen.rows.iter().any(|row| row.ends == [a, b]);
    let helm = |a, b| match b {
        ..=16 => a == 1 || b == a + 1 || [a, b] == [2, 16],
        _ => a > 1 && b == a + 15,
    };
    let web = |a, b| match b {
        ..=20 => prism_row(20, a, b),
        _ => b == a + 10,
    };
    for (name, network, rows, trees) in [
        ("Antiprism-7", ring(14, &[1, 2]), 28, 1_989_806),
        ("Antiprism-8", ring(16, &[1, 2]), 32, 15_586_704),
        (
            "Barbell-6",
            bridged(&[complete(6), complete(6)]),
            31,
            1_679_616,
        ),
        (
            "Cocktailparty-5",
            joined(10, |a, b| b != a + 5),
            40,
            32_768_000,
        ),
        ("Complete-9", complete(9), 36, 4_782_969),
        (
            "Crown-6",
            joined(12, |a, b| a < 7 && b > 6 && b != a + 6),
            30,
            6_635_520,
        ),
        ("Cyclotomic-13", ring(13, &[1, 5]), 26, 1_373_125),
        ("Gear-11", gear(23), 33, 1_956_242),
        ("Gear-12", gear(25), 36, 7_300_800),
        ("Gear-13", gear(27), 39, 27_246_962),
        ("Helm-15", joined(31, helm), 45, 1_860_496),
        (
            "Hypercube-4",
            joined(16, |a, b| ((a - 1) ^ (b - 1)).is_power_of_two()),
            32,
            42_467_328,
        ),
        ("Ladder-12", ladder(24), 34, 2_107_560),
        ("Ladder-13", ladder(26), 37, 7_865_521),
        ("Ladder-14", ladder(28), 40, 29_354_524),
        ("Moebiusladder-10", ring(20, &[1, 10]), 30, 2_620_880),
        ("Moebiusladder-11", ring(22, &[1, 11]), 33, 10_759_353),
        ("Moebiusladder-12", ring(24, &[1, 12]), 36, 43_804_824),
        ("Prism-10", prism(20), 30, 2_620_860),
        ("Prism-11", prism(22), 33, 10_759_331),
        ("Prism-12", prism(24), 36, 43_804_800),
        (
            "Triangular-5",
            joined(10, |a, b| !in_petersen(a, b) && !in_petersen(b, a)),
            30,
            2_048_000,
        ),
        ("Web-10", joined(30, web), 40, 2_620_860),
        ("Wheel-16", wheel(16), 30, 1_860_496),
        ("Wheel-17", wheel(17), 32, 4_870_845),
        ("Wheel-18", wheel(18), 34, 12_752_041),
        ("Wheel-19", wheel(19), 36, 33_385_280),
        ("Wheel-20", wheel(20), 38, 87_403_801),
    ] {
        assert_eq!(network.m(), rows, "{name}");
        assert_eq!(count(&network), Ok(trees), "{name}");
    }
}

/// No tree is no refusal.
#[test]
fn networks_without_a_tree() {
    let none = |network: Network| assert_eq!(count(&network), Ok(0), "{network:?}");
    none(with_rows(2, &[]));
    none(with_rows(2, &[]).with_states(&[]));
    none(with_rows(32, &[]));
    // all rows of one node barred, whichever it is
    for node in 1..=8 {
        let network = complete(8);
        let bar = |row: &Row| {
            if row.ends.contains(&node) {
                BARRED
            } else {
                OPEN
            }
        };
        let states: Vec<u8> = network.rows.iter().map(bar).collect();
        none(network.with_states(&states));
    }
    // must rows with a cycle: a ring of them, two beside each other, every row
    for steps in [3, 4, 8] {
        let in_ring = |row: &Row| {
            let [a, b] = row.ends;
            b <= steps && (b == a + 1 || [a, b] == [1, steps])
        };
        let network = complete(8);
        let must = |row: &Row| if in_ring(row) { MUST } else { OPEN };
        let states: Vec<u8> = network.rows.iter().map(must).collect();
        none(network.with_states(&states));
    }
    none(line(&[1, 2, 1]).with_states(&[OPEN, MUST, MUST]));
    none(complete(23).with_states(&[MUST; 253]));
    none(complete(23).with_states(&[BARRED; 253]));
    // two parts, of which one is a node
    none(apart(&[complete(9), with_rows(1, &[])]));
    none(apart(&[with_rows(1, &[]), complete(9)]));
}

/// Two parts of many trees each, by a row too few and by a barred bridge: there is nothing to be counted, and the answer comes
/// at once, however the nodes are named.
#[test]
fn two_large_parts_are_answered_at_once() {
    let mut networks = Vec::new();
    for half in [complete(16), regular(16, 5, &mut Rng::new(5)), grid(4, 4)] {
        networks.push(apart(&[half.clone(), half.clone()]));
        let mut barred = bridged(&[half.clone(), half]).with_states(&[]);
        barred.rows.last_mut().unwrap().state = BARRED;
        networks.push(barred);
    }
    let rng = &mut Rng::new(16);
    for network in networks {
        for _ in 0..4 {
            let file = any_names(network.clone(), rng).encode();
            let begun = Instant::now();
            assert_eq!(hold(&file, 1, rng), Ok(0));
            assert!(begun.elapsed() < Duration::from_secs(1));
        }
    }
}

/// One tree is left where every row of it must be dug, whatever else there is, and where all others are barred.
#[test]
fn one_tree_left() {
    for (seed, network) in (0..).zip([complete(7), complete(23), dense(32), grid(4, 8)]) {
        let tree = draw::forest(&mut Rng::new(seed), &network);
        for (in_tree, beside) in [(MUST, OPEN), (OPEN, BARRED), (MUST, BARRED)] {
            let state = |row| if tree.contains(&row) { in_tree } else { beside };
            let states: Vec<u8> = (0..network.m() as u16).map(state).collect();
            assert_eq!(count(&network.clone().with_states(&states)), Ok(1));
        }
    }
    assert_eq!(count(&line(&[1; 31])), Ok(1));
}

/// Powers of two that a word of 32 or of 64 bits would take for 0, and the limit itself by a line of 21 nodes: 2 to the power 11
/// times 5 to the power 9.
#[test]
fn lines_of_parallel_rows() {
    let steps = |[twos, fives]: [usize; 2]| {
        let beside = [vec![2; twos], vec![5; fives]].concat();
        line(&beside)
    };
    assert_eq!(count(&steps([11, 9])), Ok(4_000_000_000));
    assert_eq!(count(&steps([31, 0])), Ok(1 << 31));
    assert_eq!(count(&steps([12, 9])), Err(TOO_MANY));
    assert_eq!(count(&steps([10, 10])), Err(TOO_MANY));
    assert_eq!(count(&line(&[256])), Ok(256));
    assert_eq!(count(&line(&[128; 2])), Ok(16_384));
    // 2 to the power 32, 64 and 93
    assert_eq!(count(&line(&[4; 16])), Err(TOO_MANY));
    assert_eq!(count(&line(&[16; 16])), Err(TOO_MANY));
    assert_eq!(count(&line(&[8; 31])), Err(TOO_MANY));
}

/// The limit by blocks in a line: of the complete graphs of 5 and 4 nodes, and of pairs of rows.
#[test]
fn chains_of_blocks_at_the_limit() {
    let rng = &mut Rng::new(4);
    let pair = line(&[2]);
    let [four, five] = [complete(4), complete(5)];
    let mut blocks = vec![five.clone(), four.clone(), five.clone(), four, five];
    blocks.extend([pair.clone(), pair.clone(), pair.clone()]);
    for _ in 0..8 {
        rng.shuffle(&mut blocks);
        for network in [chained(&blocks), bridged(&blocks)] {
            assert_eq!(count(&network), Ok(4_000_000_000));
            assert_eq!(count(&any_names(network, rng)), Ok(4_000_000_000));
        }
        // one row more, somewhere in a block
        let mut more = blocks.clone();
        let block = rng.between(0, more.len() - 1);
        let row = more[block].rows[0].clone();
        more[block].rows.push(row);
        assert_eq!(count(&chained(&more)), Err(TOO_MANY));
    }
}

/// A network between node 1 and its last node with so many trees, and so many forests of two trees that part the two: nothing
/// where there is none of at most 32 nodes and 64 rows. A row beside a network of t and f makes t + f and f, and a row behind
/// it t and t + f; so both numbers are led back to two nodes without a row, 0 and 1, as in Euclid's algorithm.
fn between_two_nodes(trees: u64, forests: u64) -> Option<Network> {
    let (mut t, mut f) = (trees, forests);
    let mut beside = Vec::new();
    while t > 0 && beside.len() <= 64 {
        beside.push(t >= f);
        if t >= f {
            t -= f;
        } else {
            f -= t;
        }
    }
    let mut last = 2;
    let mut pairs = Vec::new();
    for &beside in beside.iter().rev() {
        if beside {
            pairs.push([1, last]);
        } else {
            pairs.push([last, last + 1]);
            last += 1;
        }
    }
    ((t, f) == (0, 1) && last <= 32 && pairs.len() <= 64).then(|| with_rows(last, &pairs))
}

/// Networks with exactly so many trees: the quotients of Euclid's algorithm are small near the golden section.
fn with_trees(trees: u64) -> impl Iterator<Item = Network> {
    let first = (trees as f64 * 0.618_033_988_749_895) as u64;
    (first..).filter_map(move |forests| between_two_nodes(trees, forests))
}

#[test]
fn one_tree_decides() {
    let rng = &mut Rng::new(112);
    for (trees, outcome) in [
        (65_537, Ok(65_537)),
        (2_147_483_647, Ok(2_147_483_647)),
        (2_147_483_648, Ok(2_147_483_648)),
        (3_999_999_999, Ok(3_999_999_999)),
        (4_000_000_000, Ok(4_000_000_000)),
        (4_000_000_001, Err(TOO_MANY)),
        (4_000_000_002, Err(TOO_MANY)),
        // a word of 32 bits would hold the largest, 0 and 1
        (4_294_967_295, Err(TOO_MANY)),
        (4_294_967_296, Err(TOO_MANY)),
        (4_294_967_297, Err(TOO_MANY)),
        (8_294_967_296, Err(TOO_MANY)),
    ] {
        for network in with_trees(trees).take(5) {
            assert_eq!(counts::count(&network), Some(trees));
            assert_eq!(count(&network), outcome);
            assert_eq!(count(&any_names(network, rng)), outcome);
        }
    }
}

/// The primes of the determinant are prime, by the strong test to the first twelve bases, which decides below 2^64.
#[test]
fn the_primes_are_prime() {
    for prime in PRIMES {
        let twos = (prime - 1).trailing_zeros();
        for base in [2, 3, 5, 7, 11, 13, 17, 19, 23, 29, 31, 37] {
            let powers: Vec<u64> = (0..twos)
                .map(|two| counts::power(base, (prime - 1) >> (twos - two), prime))
                .collect();
            assert!(powers[0] == 1 || powers.contains(&(prime - 1)));
        }
    }
}

/// The determinant, to which the library is held, is the length of the list by subsets of rows.
#[test]
fn the_determinant_is_the_list() {
    let mut seen = Seen::default();
    for seed in 0..6_000 {
        let rng = &mut Rng::new(seed);
        let network = match seed % 3 {
            0 => draw::network(rng, 6, 12),
            _ => draw::network_with_states(rng, 6, 12),
        };
        let list = trees::list(&network).len() as u64;
        assert_eq!(counts::count(&network), Some(list), "{network:?}");
        seen.note("with must rows and trees", has(&network, MUST) && list > 1);
        seen.note(
            "with barred rows and trees",
            has(&network, BARRED) && list > 1,
        );
        seen.note("with a must cycle", trees::must_cycle(&network));
        seen.note("without a tree", list == 0);
    }
    seen.enough(200);
    // and where no list is made: n to the power n - 2, up to what three remainders tell
    for n in 2..=16 {
        assert_eq!(
            counts::count(&complete(n)),
            Some((n as u64).pow(n as u32 - 2))
        );
    }
    for n in 17..=23 {
        assert_eq!(counts::count(&complete(n)), None);
    }
}

/// How many seeded networks there are, and how many at the least must come of everything that is counted.
const NETWORKS: u64 = 10_000;
const ENOUGH: usize = 400;

/// Count is the length of the list: by the library's pages, by the walk and by the determinant.
fn is_the_length_of_the_list(make: impl Fn(&mut Rng) -> Network, with_states: bool) {
    let mut seen = Seen::default();
    let mut trees = 0;
    let mut most = 0;
    for seed in 0..NETWORKS {
        let rng = &mut Rng::new(seed);
        let network = make(rng);
        let file = network.encode();
        let list = walked(&network);
        assert_eq!(hold(&file, rng.between(1, 3), rng), Ok(list as u32));
        if list > 0 {
            assert_eq!(listed(&network), list, "{network:?}");
        } else {
            let mut page = vec![0; network.width()];
            assert_eq!(ffi::page(&file, &mut page, &[], &mut [0; 2]), 12);
        }
        trees += list;
        most = most.max(list);
        let mut pairs: Vec<[u8; 2]> = network.rows.iter().map(|row| row.ends).collect();
        pairs.iter_mut().for_each(|pair| pair.sort());
        pairs.sort();
        seen.note("with a tree", list > 0);
        seen.note("with over 100 trees", list > 100);
        seen.note("without a tree", list == 0);
        seen.note(
            "parallel rows",
            pairs.windows(2).any(|two| two[0] == two[1]),
        );
        seen.note("8 nodes", network.n == 8);
        if with_states {
            let [must, barred] = [MUST, BARRED].map(|state| has(&network, state));
            seen.note("with must rows", must);
            seen.note("with barred rows", barred);
            seen.note("with both and over 10 trees", must && barred && list > 10);
            seen.note("with a must cycle", trees::must_cycle(&network));
        }
    }
    println!("{NETWORKS} networks with {trees} trees, the most {most}");
    seen.enough(ENOUGH);
    assert!(most >= 5_000);
}

#[test]
fn seeded_networks() {
    is_the_length_of_the_list(|rng| draw::network(rng, 8, 20), false);
}

#[test]
fn seeded_networks_with_states() {
    is_the_length_of_the_list(|rng| draw::network_with_few_states(rng, 8, 20), true);
}

/// Networks of any size, most with far more trees than are answered.
#[test]
fn large_networks() {
    let mut seen = Seen::default();
    for seed in 0..1_000 {
        let rng = &mut Rng::new(seed);
        let network = draw::network_with_few_states(rng, 32, 256);
        let outcome = hold(&network.encode(), 1, rng);
        let above = |least| outcome.is_ok_and(|trees| trees >= least);
        seen.note("refused", outcome.is_err());
        seen.note("answered", outcome.is_ok());
        seen.note(
            "answered, over 16 nodes and 1,000 trees",
            network.n > 16 && above(1_000),
        );
        seen.note("answered, over 1,000,000 trees", above(1_000_000));
        seen.note("without a tree", outcome == Ok(0));
        seen.note("over 200 rows", network.m() > 200);
    }
    seen.enough(20);
}

/// The last network that is answered and the first that is not, of those that are given one row more at a time; three rows must
/// be dug.
#[test]
fn rows_added_up_to_the_limit() {
    let mut seen = Seen::default();
    for seed in 0..60 {
        let rng = &mut Rng::new(seed);
        let n = rng.between(10, 32);
        let joined = line(&vec![1; n - 1]).with_states(&[MUST, OPEN, MUST, MUST]);
        let joined = any_names(joined, rng);
        let barred = rng.pick(&[5, 10, 50]);
        let [answered, refused] = draw::up_to_the_limit(rng, joined, barred);
        assert!(count(&answered).is_ok());
        assert_eq!(count(&refused), Err(TOO_MANY));
        let close = |network| {
            let trees = counts::count(network);
            trees.is_some_and(|trees| (MOST_TREES / 4..=MOST_TREES * 4).contains(&trees))
        };
        seen.note("answered, over a fourth of the limit", close(&answered));
        seen.note("refused, under four times the limit", close(&refused));
        seen.note("with barred rows", has(&answered, BARRED));
        seen.note("over 20 nodes", n > 20);
    }
    seen.enough(20);
}

/// The rule of #112: a row is dropped, as if it were barred, or its ends are merged, as if it were a must row.
#[test]
fn a_row_is_dropped_or_merged() {
    let trees = |network: &Network| count(network).map(u64::from);
    let mut seen = Seen::default();
    for seed in 0..800 {
        let rng = &mut Rng::new(seed);
        let (nodes, rows) = rng.pick(&[(6, 12), (12, 30), (14, 40)]);
        let network = draw::network_with_few_states(rng, nodes, rows);
        let whole = trees(&network);
        for row in 0..network.m() {
            if network.rows[row].state == OPEN {
                let with = |state| {
                    let mut other = network.clone();
                    other.rows[row].state = state;
                    trees(&other)
                };
                let sum = match (with(BARRED), with(MUST)) {
                    (Ok(dropped), Ok(merged)) => Ok(dropped + merged),
                    _ => Err(TOO_MANY),
                };
                let held = sum.and_then(|sum| match sum {
                    ..=MOST_TREES => Ok(sum),
                    _ => Err(TOO_MANY),
                });
                assert_eq!(whole, held, "row {row} of {network:?}");
                seen.note("rows of answered networks", whole.is_ok());
                seen.note("rows of over 1,000,000 trees", whole > Ok(1_000_000));
                seen.note("rows without a tree", whole == Ok(0));
            }
        }
    }
    seen.enough(100);
}

/// The sequence of the rows, of a row's ends and of the nodes' names has no say, nor what the rows cost.
#[test]
fn what_has_no_say() {
    let mut seen = Seen::default();
    for seed in 0..600 {
        let rng = &mut Rng::new(seed);
        let (nodes, rows) = rng.pick(&[(8, 16), (8, 16), (14, 28), (32, 256)]);
        let network = draw::network_with_few_states(rng, nodes, rows);
        let outcome = count(&network);
        let mut plain = network.clone();
        plain.kinds = vec![1];
        for row in &mut plain.rows {
            *row = Row {
                state: row.state,
                ..Row::new(row.ends, 7, vec![9])
            };
        }
        assert_eq!(count(&plain), outcome, "{network:?}");
        for _ in 0..3 {
            let mut other = any_names(network.clone(), rng);
            rng.shuffle(&mut other.rows);
            for row in &mut other.rows {
                rng.shuffle(&mut row.ends);
            }
            assert_eq!(count(&other), outcome, "{network:?} and {other:?}");
        }
        seen.note(
            "answered, over 1,000 trees",
            outcome.is_ok() && outcome > Ok(1_000),
        );
        seen.note("refused", outcome.is_err());
        seen.note("without a tree", outcome == Ok(0));
    }
    seen.enough(25);
}

/// What Open says of a file.
fn open(file: &[u8]) -> u32 {
    ffi::open(file, &mut [0; 3])
}

/// Damaged files of networks that are made so: Open's own number, each of these checks often, and 255 before any.
fn damaged_files(make: impl Fn(&mut Rng) -> Network, codes: &[usize]) {
    let mut of_code = [0; 256];
    for seed in 0..20_000 {
        let rng = &mut Rng::new(seed);
        let network = make(rng);
        let file = damaged(&network, rng);
        let places = rng.pick(&[0, 1, 1, 1, 2, 5]);
        let code = hold(&file, places, rng).err().unwrap_or(0);
        let expected = if places == 0 {
            SHORT_ANSWER
        } else {
            open(&file)
        };
        assert_eq!(code, expected);
        of_code[code as usize] += 1;
    }
    println!("calls by code, 0 to 14: {:?}", &of_code[..15]);
    println!("with a short answer: {}", of_code[255]);
    assert!(codes.iter().all(|&code| of_code[code] >= ENOUGH));
    assert!(of_code[255] >= ENOUGH);
}

#[test]
fn damaged_files_of_version_1() {
    damaged_files(|rng| draw::network(rng, 5, 8), &[0, 1, 2, 3, 4, 5, 6, 7]);
}

#[test]
fn damaged_files_of_version_2() {
    let make = |rng: &mut Rng| draw::network_with_states(rng, 5, 8);
    damaged_files(make, &[0, 1, 2, 3, 4, 5, 6, 7, 14]);
}

/// A file's check comes before 25, wherever the file is cut, and a short answer before both.
#[test]
fn truncated_files() {
    let rng = &mut Rng::new(59);
    let stated = draw::network_with_states(rng, 8, 16);
    for whole in [
        NETWORK_A.to_vec(),
        stated.encode(),
        complete(12).encode(),
        dense(32).with_states(&[]).encode(),
    ] {
        for length in 0..whole.len() {
            let mut file = whole[..length].to_vec();
            for mended in [false, true] {
                if mended && length >= 5 {
                    mend_length(&mut file);
                }
                let number = open(&file);
                assert_ne!(number, 0);
                assert_eq!(hold(&file, 0, rng), Err(SHORT_ANSWER));
                assert_eq!(hold(&file, 1, rng), Err(number));
                assert_eq!(hold(&file, 3, rng), Err(number));
            }
        }
        assert_eq!(hold(&whole, 0, rng), Err(SHORT_ANSWER));
        for places in 1..5 {
            assert!(matches!(hold(&whole, places, rng), Ok(_) | Err(TOO_MANY)));
        }
    }
}

/// The checks of the file come first, and 25 after them all: the complete graph of 12 nodes has too many trees.
#[test]
fn the_first_check_decides() {
    let network = complete(12).with_states(&[]);
    let file = network.encode();
    let rng = &mut Rng::new(25);
    assert_eq!(hold(&file, 1, rng), Err(TOO_MANY));
    let last = file.len() - 9;
    for (at, byte, number) in [
        (0, 3, 1),
        (4, 0, 2),
        (5, 33, 3),
        (7, 65, 4),
        (9, 3, 5),
        (last, 0, 6),
        (last + 1, 13, 6),
        (last + 5, 1, 7),
        (last + 4, 3, 14),
    ] {
        let mut other = file.clone();
        other[at] = byte;
        assert_eq!(open(&other), number);
        assert_eq!(hold(&other, 1, rng), Err(number));
        assert_eq!(hold(&other, 0, rng), Err(SHORT_ANSWER));
    }
}

/// The stack of a caller's thread: a small one, since Rust gives a thread 2 MiB. Count takes some 284 KiB on every network, as
/// measured, of which 256 are the levels of its search.
const STACK: usize = 3 << 17;

/// The search goes down by a node at a time, and takes no more of the stack on networks of 32 nodes, or on those that take it long.
#[test]
fn a_small_stack_is_enough() {
    let rng = &mut Rng::new(32);
    let mut networks = vec![
        dense(32),
        complete(11),
        complete(23),
        grid(4, 8),
        grid(5, 6),
        ladder(32),
        wheel(32),
        ring(32, &[1]),
        line(&[8; 31]),
        of_document_002(),
        // a must path through all the nodes, and half of one, with rows beside it
        dense(32).with_states(&[MUST; 31]),
        dense(32).with_states(&[MUST; 15]),
    ];
    networks.extend(with_trees(MOST_TREES).take(1));
    for network in networks.clone() {
        let names: Vec<u8> = (1..=network.n).rev().collect();
        networks.push(renamed(network, &names));
    }
    networks.extend([regular(20, 4, rng), regular(32, 3, rng)]);
    for network in networks {
        let file = network.encode();
        let expected = operations::count(&file);
        let call = move || {
            let mut answer = [0];
            match ffi::count(&file, &mut answer) {
                0 => Ok(answer[0]),
                number => Err(number),
            }
        };
        let thread = thread::Builder::new().stack_size(STACK).spawn(call);
        assert_eq!(thread.unwrap().join().unwrap(), expected, "{network:?}");
    }
}
