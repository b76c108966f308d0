//! The closing criterion of document 02, #103, as the proved library has it: a named street is closed once, for the
//! largest days of the tree's rows there, and rows of street 0 count one by one. Worked networks first, then seeded ones
//! of streets with many rows against the independent costs, each rule that one might take instead told apart.

use planner_tests::costs;
use planner_tests::draw;
use planner_tests::ffi;
use planner_tests::file::{Network, Row, MOST};
use planner_tests::rng::Rng;

fn cost(network: &Network, rows: &[u16]) -> Vec<u32> {
    let mut vector = vec![0; network.k()];
    assert_eq!(ffi::cost(&network.encode(), rows, &mut vector), 0);
    vector
}

/// A line of rows with these streets and days, each with as many closing criteria as it has days.
fn line<const K: usize>(rows: &[(u16, [u32; K])]) -> Network {
    let row = |(i, &(street, days)): (usize, &(u16, [u32; K]))| {
        Row::new([i as u8 + 1, i as u8 + 2], street, days.to_vec())
    };
    let n = rows.len() as u8 + 1;
    Network::new(n, vec![2; K], rows.iter().enumerate().map(row).collect())
}

/// What the only tree of such a line costs, drawn from either end.
fn line_cost<const K: usize>(rows: &[(u16, [u32; K])]) -> Vec<u32> {
    let network = line(rows);
    let mut tree: Vec<u16> = (0..network.m() as u16).collect();
    let vector = cost(&network, &tree);
    tree.reverse();
    assert_eq!(cost(&network, &tree), vector);
    vector
}

#[test]
fn a_street_is_closed_once() {
    assert_eq!(line_cost(&[(7, [3]), (7, [5])]), [5]);
    assert_eq!(line_cost(&[(7, [5]), (7, [3])]), [5]);
    assert_eq!(line_cost(&[(7, [3]), (8, [5])]), [8]);
    assert_eq!(line_cost(&[(0, [3]), (0, [5])]), [8]);
    assert_eq!(line_cost(&[(7, [3]), (0, [5])]), [8]);
    // the last street of all, and one with half of its bytes
    assert_eq!(line_cost(&[(65_535, [3]), (65_535, [5])]), [5]);
    assert_eq!(line_cost(&[(65_535, [3]), (255, [5])]), [8]);
    // equal days, and none
    assert_eq!(line_cost(&[(7, [4]), (7, [4]), (7, [4])]), [4]);
    assert_eq!(line_cost(&[(7, [0]), (7, [0])]), [0]);
    assert_eq!(line_cost(&[(0, [4]), (0, [4]), (0, [4])]), [12]);
    // streets by turns
    let turns = [(7, [3]), (9, [2]), (0, [1]), (7, [5]), (9, [6]), (0, [1])];
    assert_eq!(line_cost(&turns), [5 + 6 + 2]);
}

/// Each criterion has its own largest row of a street.
#[test]
fn several_closing_criteria() {
    let rows = [(7, [3, 6, 0]), (7, [5, 2, 0]), (0, [4, 1, 9])];
    assert_eq!(line_cost(&rows), [9, 7, 9]);
    let mut network = line(&rows);
    network.kinds = vec![2, 1, 0];
    assert_eq!(cost(&network, &[0, 1, 2]), [9, 6, 9]);
    network.kinds = vec![0, 2, 1];
    assert_eq!(cost(&network, &[0, 1, 2]), [12, 7, 9]);
}

/// 31 rows of the most days: in streets of their own, off the road, in one street, in two.
#[test]
fn the_greatest_closing_cost() {
    let days = |street: fn(u16) -> u16| -> Vec<u32> {
        let rows: Vec<(u16, [u32; 1])> = (0..31).map(|i| (street(i), [MOST])).collect();
        line_cost(&rows)
    };
    assert_eq!(days(|i| 65_535 - i), [31_000_000]);
    assert_eq!(days(|_| 0), [31_000_000]);
    assert_eq!(days(|_| 65_535), [MOST]);
    assert_eq!(days(|i| 65_535 - i % 2), [2 * MOST]);
    assert_eq!(days(|i| i), [31_000_000]);
}

/// Network C of the examples. With the days of a street added, trees 0 1 and 0 3 would cost 8 8 and 5 8.
#[test]
fn the_front_follows() {
    let row = |ends, street, days: [u32; 2]| Row::new(ends, street, days.to_vec());
    let rows = vec![
        row([1, 2], 7, [3, 6]),
        row([2, 3], 7, [5, 2]),
        row([1, 3], 0, [4, 1]),
        row([2, 3], 65_535, [2, 2]),
        row([1, 2], 0, [4, 4]),
    ];
    let network = Network::new(3, vec![2, 2], rows);
    let mut costs = [9; 6];
    let mut witnesses = [9; 6];
    let mut answer = [9; 2];
    let code = ffi::front(&network.encode(), &mut costs, &mut witnesses, &mut answer);
    assert_eq!((code, answer), (0, [2, 1]));
    assert_eq!(costs, [5, 6, 6, 3, 9, 9]);
    assert_eq!(witnesses, [0, 1, 2, 3, 9, 9]);
}

/// A tree's rows of each street that it has, street 0 among them.
fn by_street<'a>(network: &'a Network, tree: &[u16]) -> Vec<(u16, Vec<&'a Row>)> {
    let rows: Vec<&Row> = tree.iter().map(|&r| &network.rows[r as usize]).collect();
    let mut streets: Vec<u16> = rows.iter().map(|row| row.street).collect();
    streets.sort();
    streets.dedup();
    let of = |street| rows.iter().copied().filter(move |row| row.street == street);
    streets.into_iter().map(|s| (s, of(s).collect())).collect()
}

/// What is counted of the trees: their streets, and how many tell the rule from three that one might take instead.
const COUNTED: [&str; 7] = [
    "trees with a street of ten rows or more",
    "trees with street 65,535",
    "trees with several rows of the largest days in a street",
    "trees with several closing criteria, of different largest rows in a street",
    "trees that cost more with the days of a street added",
    "trees that cost less with one closing of all streets together",
    "trees that cost less with street 0 taken as a street",
];

#[test]
fn seeded_trees() {
    let mut counts = [0; COUNTED.len()];
    let mut trees = 0;
    for seed in 0..6_000 {
        let rng = &mut Rng::new(seed);
        let (nodes, rows) = rng.pick(&[(5, 9), (32, 256)]);
        let network = draw::network_with_streets(rng, nodes, rows);
        let tree = draw::forest(rng, &network);
        if tree.len() < network.width() {
            continue;
        }
        trees += 1;
        let vector = cost(&network, &tree);
        assert_eq!(
            vector,
            costs::vector(&network, &tree),
            "{network:?} {tree:?}"
        );
        let told = told_apart(&network, &tree, &vector);
        counts
            .iter_mut()
            .zip(told)
            .for_each(|(n, is)| *n += is as u32);
    }
    println!("{trees} trees");
    for (what, count) in COUNTED.iter().zip(counts) {
        println!("{count} {what}");
        assert!(count >= 300, "too few: {what}");
    }
}

/// Which of what is counted the tree has.
fn told_apart(network: &Network, tree: &[u16], vector: &[u32]) -> [bool; COUNTED.len()] {
    let streets = by_street(network, tree);
    let named: Vec<&Vec<&Row>> = streets.iter().filter(|s| s.0 > 0).map(|s| &s.1).collect();
    let off: Vec<&Row> = streets
        .iter()
        .filter(|s| s.0 == 0)
        .flat_map(|s| s.1.clone())
        .collect();
    let closing: Vec<usize> = (0..network.k())
        .filter(|&c| network.kinds[c] == 2)
        .collect();

    let days =
        |rows: &[&Row], c: usize| -> Vec<u32> { rows.iter().map(|row| row.costs[c]).collect() };
    let most = |rows: &[&Row], c: usize| days(rows, c).into_iter().max().unwrap_or(0);
    let added = |rows: &[&Row], c: usize| days(rows, c).into_iter().sum::<u32>();
    let largest_rows = |rows: &[&Row], c: usize| -> Vec<usize> {
        (0..rows.len())
            .filter(|&i| rows[i].costs[c] == most(rows, c))
            .collect()
    };

    let summed = |c: usize| named.iter().map(|rows| added(rows, c)).sum::<u32>() + added(&off, c);
    let together =
        |c: usize| named.iter().map(|rows| most(rows, c)).max().unwrap_or(0) + added(&off, c);
    let zero_named = |c: usize| named.iter().map(|rows| most(rows, c)).sum::<u32>() + most(&off, c);
    let differ = |rows: &&Vec<&Row>| {
        closing
            .iter()
            .any(|&c| largest_rows(rows, c) != largest_rows(rows, closing[0]))
    };
    [
        named.iter().any(|rows| rows.len() >= 10),
        streets.iter().any(|s| s.0 == u16::MAX),
        named
            .iter()
            .any(|rows| largest_rows(rows, closing[0]).len() > 1),
        named.iter().any(differ),
        closing.iter().any(|&c| summed(c) > vector[c]),
        closing.iter().any(|&c| together(c) < vector[c]),
        closing.iter().any(|&c| zero_named(c) < vector[c]),
    ]
}
