//! Page, as linked from the proved library, held to documents 01 and 02 and to the list by subsets of rows: known counts
//! first, then runs of pages over seeded networks, refused calls between, every page compared whole.

use planner_tests::damage::damaged;
use planner_tests::draw;
use planner_tests::ffi::{self, SHORT_ANSWER};
use planner_tests::file::{network_a, Network, BARRED, MUST, OPEN};
use planner_tests::lent::Lent;
use planner_tests::operations::{self, Listed};
use planner_tests::pages;
use planner_tests::rng::Rng;
use planner_tests::shapes::{self, complete, petersen, with_rows};
use planner_tests::trees;

/// One call: the file, a page of so many places, the start, and an answer of so many places. Returns the code that it
/// must have, and the trees that it must have written.
fn hold(
    file: &[u8],
    read: &Result<Listed, u32>,
    places: usize,
    start: &[u16],
    answer_places: usize,
    rng: &mut Rng,
) -> (u32, Vec<Vec<u16>>) {
    let mut page = Lent::new(places, || rng.word() as u16);
    let mut answer = Lent::new(answer_places, || rng.word() as u32);
    let code = ffi::page(file, page.part(), start, answer.part());
    let (expected, trees, counted) = match operations::page(read, places, start) {
        _ if answer_places < 2 => (SHORT_ANSWER, vec![], vec![]),
        Ok(paged) => {
            let counted = vec![paged.trees.len() as u32, paged.more as u32];
            (0, paged.trees.to_vec(), counted)
        }
        Err(number) => (number, vec![], vec![]),
    };
    let told = || format!("Page of {places} places after {start:?}, file {file:02x?}");
    assert_eq!(code, expected, "{}", told());
    page.expect(&trees.concat(), told);
    answer.expect(&counted, told);
    (expected, trees)
}

/// The whole list through pages of so many trees.
fn listed(network: &Network, trees_a_page: usize) -> Vec<Vec<u16>> {
    let mut list = Vec::new();
    pages::each(network, trees_a_page, &mut |page| {
        list.extend(page.chunks(network.width()).map(<[u16]>::to_vec));
    });
    list
}

#[test]
fn network_a_of_document_01() {
    let list: [&[u16]; 5] = [&[0, 2], &[0, 3], &[1, 2], &[1, 3], &[2, 3]];
    for trees_a_page in 1..7 {
        assert_eq!(listed(&network_a(), trees_a_page), list);
    }
    let file = network_a().encode();
    let mut page = [7; 2];
    let mut answer = [7; 2];
    assert_eq!(ffi::page(&file, &mut page, &[3, 2], &mut answer), 13);
    assert_eq!((page, answer), ([7; 2], [7; 2]));
    assert_eq!(ffi::page(&file, &mut page, &[2, 3], &mut answer), 0);
    assert_eq!((page, answer), ([7; 2], [0, 0]));
}

#[test]
fn known_counts() {
    for (name, network, count) in shapes::of_known_counts() {
        let list = trees::list(&network);
        assert_eq!(list.len(), count, "{name}");
        for trees_a_page in [1, 64, 20_000] {
            assert_eq!(listed(&network, trees_a_page), list, "{name}");
        }
    }
}

/// 12 comes before 11, and 11 before whatever is wrong with the start: 8, 9, 10, 13 in this order.
#[test]
fn the_first_check_decides() {
    let rng = &mut Rng::new(12);
    let a = network_a().encode();
    let mut apart = network_a();
    apart.rows.truncate(2);
    let apart = apart.encode();
    let starts: [(&[u16], u32); 10] = [
        (&[], 0),
        (&[0], 8),
        (&[4], 8),
        (&[0, 0, 0], 8),
        (&[4, 4], 9),
        (&[0, 260], 9),
        (&[0, 0], 10),
        (&[0, 1], 10),
        (&[3, 2], 13),
        (&[2, 3], 0),
    ];
    for (start, number) in starts {
        let read = Listed::read(&a);
        for places in 0..2 {
            assert_eq!(hold(&a, &read, places, start, 2, rng).0, 11);
        }
        for places in 2..13 {
            assert_eq!(hold(&a, &read, places, start, 2, rng).0, number);
        }
        let read = Listed::read(&apart);
        for places in 0..13 {
            assert_eq!(hold(&apart, &read, places, start, 2, rng).0, 12);
        }
    }
    let none = with_rows(2, &[]).encode();
    assert_eq!(hold(&none, &Listed::read(&none), 1, &[], 2, rng).0, 12);
}

/// With states: 12 also where the must rows have a cycle, and of the start 15 between 10 and 13.
#[test]
fn the_first_check_decides_with_states() {
    let rng = &mut Rng::new(15);
    let file = network_a()
        .with_states(&[BARRED, OPEN, OPEN, MUST])
        .encode();
    let read = Listed::read(&file);
    let starts: [(&[u16], u32); 10] = [
        (&[], 0),
        (&[0], 8),
        (&[0, 4], 9),
        (&[0, 1], 10),
        (&[0, 2], 15),
        (&[3, 0], 15),
        (&[2, 1], 15),
        (&[3, 2], 13),
        (&[1, 3], 0),
        (&[2, 3], 0),
    ];
    for (start, number) in starts {
        assert_eq!(hold(&file, &read, 1, start, 2, rng).0, 11);
        assert_eq!(hold(&file, &read, 4, start, 2, rng).0, number);
    }
    for states in [
        [BARRED, BARRED, OPEN, BARRED],
        [MUST, MUST, OPEN, OPEN],
        [MUST, OPEN, MUST, MUST],
        [MUST; 4],
        [BARRED; 4],
    ] {
        let file = network_a().with_states(&states).encode();
        let read = Listed::read(&file);
        for (start, _) in starts {
            for places in 0..3 {
                assert_eq!(hold(&file, &read, places, start, 2, rng).0, 12);
            }
        }
    }
}

/// A list by its pages is the plain list without the trees that break a state, and its trees come in the same order.
#[test]
fn states_only_leave_trees_out() {
    let plain = petersen();
    let list = trees::list(&plain);
    // a ring, then with a spoke; a must path; three bridges' worth of barred rows
    for states in [
        vec![MUST, OPEN, OPEN, MUST],
        vec![BARRED, OPEN, OPEN, BARRED, OPEN, OPEN, BARRED],
        vec![MUST, MUST, BARRED, MUST, BARRED, MUST],
        vec![MUST, MUST, MUST, BARRED, BARRED, BARRED, OPEN, OPEN, MUST],
    ] {
        let network = plain.clone().with_states(&states);
        let kept: Vec<Vec<u16>> = list
            .iter()
            .filter(|tree| trees::keeps_states(&network, tree))
            .cloned()
            .collect();
        assert!(!kept.is_empty());
        for trees_a_page in [1, 7, 2_000] {
            assert_eq!(listed(&network, trees_a_page), kept);
        }
    }
}

/// One tree is left where every row of it must be dug, whatever else there is, and where all others are barred.
#[test]
fn one_tree_left() {
    let network = complete(7);
    let tree = draw::forest(&mut Rng::new(1), &network);
    for (in_tree, beside) in [(MUST, OPEN), (OPEN, BARRED), (MUST, BARRED)] {
        let states: Vec<u8> = (0..network.m() as u16)
            .map(|row| if tree.contains(&row) { in_tree } else { beside })
            .collect();
        let only = listed(&network.clone().with_states(&states), 3);
        assert_eq!(only, [trees::minimal_path(&network, &tree)]);
    }
}

/// A network that has only one tree, however many half-grown paths lead nowhere: a star with the plant at its rim.
#[test]
fn a_star_of_32_nodes() {
    let mut pairs = vec![[32, 1]];
    pairs.extend((2..32).map(|node| [node, 32]));
    let tree: Vec<u16> = (0..31).collect();
    for trees_a_page in [1, 2] {
        assert_eq!(listed(&with_rows(32, &pairs), trees_a_page), [&tree[..]]);
    }
}

/// How many seeded networks there are, and how many at the least must come of everything that is counted.
const NETWORKS: u64 = 12_000;
const ENOUGH: usize = 500;

/// How many places a page has: none, too few for a tree, for some trees exactly, or with places left over.
fn places(width: usize, list: usize, rng: &mut Rng) -> usize {
    match rng.between(0, 9) {
        0 => 0,
        1 => rng.between(0, width - 1),
        2 => width,
        3 => width * rng.between(1, 3),
        4 => width * list,
        5 => width * (list + 1) + rng.between(0, width),
        _ => rng.between(width, width * (1 + list / 2).min(80)),
    }
}

/// A start that somebody may hand over who is in no run: any tree of the list, the last, or rows drawn by hand.
fn any_start(read: &Listed, rng: &mut Rng) -> Vec<u16> {
    match rng.between(0, 3) {
        0 if !read.list.is_empty() => read.list[rng.between(0, read.list.len() - 1)].clone(),
        1 if !read.list.is_empty() => read.list[read.list.len() - 1].clone(),
        _ => draw::rows(rng, &read.network),
    }
}

/// Runs of pages over networks that are made so; each of these codes must come often.
fn runs_of_pages(make: impl Fn(&mut Rng) -> Network, codes: &[usize]) {
    let mut of_code = [0; 256];
    let mut trees = 0;
    let mut most = 0;
    let mut to_the_end = 0;
    for seed in 0..NETWORKS {
        let rng = &mut Rng::new(seed);
        let network = make(rng);
        let file = network.encode();
        let read = Listed::read(&file);
        let listed = read.as_ref().unwrap();
        let (width, list) = (network.width(), &listed.list);
        trees += list.len();
        most = most.max(list.len());

        // The run: each call starts after the last tree written so far.
        let mut written: Vec<Vec<u16>> = Vec::new();
        let mut fit = 0;
        for _ in 0..rng.between(0, 12) {
            let start = written.last().cloned().unwrap_or_default();
            let places = places(width, list.len(), rng);
            let (code, next) = hold(&file, &read, places, &start, 2, rng);
            of_code[code as usize] += 1;
            fit += places / width;
            written.extend(next);

            // Calls between that are in no run.
            for _ in 0..rng.between(0, 2) {
                let start = any_start(listed, rng);
                let places = rng.pick(&[0, width, width, 3 * width, 3 * width + 1]);
                let answer = rng.pick(&[0, 1, 2, 2, 2, 2, 3, 5]);
                let (code, _) = hold(&file, &read, places, &start, answer, rng);
                of_code[code as usize] += 1;
            }
        }
        assert_eq!(written[..], list[..list.len().min(fit)]);
        to_the_end += (!list.is_empty() && written.len() == list.len()) as usize;
    }
    println!("{NETWORKS} networks with {trees} trees, the most {most}");
    println!("{to_the_end} runs to the end of their list");
    println!("calls by code, 0 to 15: {:?}", &of_code[..16]);
    println!("with a short answer: {}", of_code[255]);
    for &code in codes {
        assert!(of_code[code] >= ENOUGH, "too few: {code}");
    }
    assert!(to_the_end >= ENOUGH && most >= 1_000);
}

#[test]
fn runs_of_pages_over_seeded_networks() {
    let make = |rng: &mut Rng| draw::network(rng, 7, 15);
    runs_of_pages(make, &[0, 8, 9, 10, 11, 12, 13, 255]);
}

#[test]
fn runs_of_pages_over_seeded_networks_with_states() {
    let make = |rng: &mut Rng| draw::network_with_states(rng, 7, 15);
    runs_of_pages(make, &[0, 8, 9, 10, 11, 12, 13, 15, 255]);
}

/// Networks of any size, where no list can be held against: the first page has trees that keep the states, as their minimal
/// paths, in ascending order, and 12 comes exactly if Reach is short or the must rows have a cycle.
#[test]
fn first_pages_of_large_networks_with_states() {
    let mut pages = 0;
    let mut full = 0;
    for seed in 0..4_000 {
        let rng = &mut Rng::new(seed);
        let network = draw::network_with_states(rng, 32, 256);
        let mut page = vec![0; 20 * network.width()];
        let mut answer = [0; 2];
        let code = ffi::page(&network.encode(), &mut page, &[], &mut answer);
        let reached = trees::reached(&network).len() == network.n as usize;
        if !reached || trees::must_cycle(&network) {
            assert_eq!(code, 12, "{network:?}");
            continue;
        }
        assert_eq!(code, 0, "{network:?}");
        let count = answer[0] as usize;
        let written: Vec<&[u16]> = page.chunks(network.width()).take(count).collect();
        for tree in &written {
            assert!(trees::is_minimal(&network, tree), "{network:?}");
            assert!(trees::keeps_states(&network, tree), "{network:?}");
        }
        let keys = |tree: &&[u16]| trees::keys(&network, tree);
        let keys: Vec<_> = written.iter().map(keys).collect();
        assert!(keys.windows(2).all(|two| two[0] < two[1]), "{network:?}");
        pages += 1;
        full += answer[1] as usize;
    }
    println!("{pages} pages, {full} with more behind them");
    assert!(pages >= ENOUGH && full >= ENOUGH);
}

/// Damaged files of networks that are made so; each of these checks must refuse many.
fn damaged_files(make: impl Fn(&mut Rng) -> Network, codes: &[usize]) {
    let mut of_code = [0; 256];
    for seed in 0..20_000 {
        let rng = &mut Rng::new(seed);
        let network = make(rng);
        let file = damaged(&network, rng);
        let read = Listed::read(&file);
        let start = if rng.once_in(2) {
            vec![]
        } else {
            draw::rows(rng, &network)
        };
        let places = rng.between(0, 3 * network.width());
        let answer = rng.pick(&[0, 1, 2, 2, 2, 2, 2, 2, 3]);
        let (code, _) = hold(&file, &read, places, &start, answer, rng);
        of_code[code as usize] += 1;
    }
    println!("calls by code, 0 to 15: {:?}", &of_code[..16]);
    assert!(codes.iter().all(|&code| of_code[code] >= ENOUGH));
    assert!(of_code[255] >= ENOUGH);
}

#[test]
fn damaged_files_of_version_1() {
    damaged_files(|rng| draw::network(rng, 5, 8), &[1, 2, 3, 4, 5, 6, 7]);
}

#[test]
fn damaged_files_of_version_2() {
    let make = |rng: &mut Rng| draw::network_with_states(rng, 5, 8);
    damaged_files(make, &[1, 2, 3, 4, 5, 6, 7, 14]);
}
