//! Front on networks with so many trees that the library searches for the front and does not walk the list: held to a plain
//! walk over all trees on networks of 8 to 12 nodes, and to a plain search on street grids and sparse networks of 16 to 32
//! nodes, vectors and witnesses, with tables that cut the front or hold it whole. The two plain ways are held to each
//! other and to subsets of rows first.

use std::collections::BTreeSet;

use planner_tests::choice::{is_searched, product, searched_above};
use planner_tests::costs::Entry;
use planner_tests::draw;
use planner_tests::ffi::{self, SHORT_ANSWER};
use planner_tests::file::{Network, Row, BARRED, MOST, MUST, OPEN};
use planner_tests::lent::Lent;
use planner_tests::operations::Listed;
use planner_tests::rng::Rng;
use planner_tests::{search, study, trees, walk, walked};

/// One call with tables of so many places: the code, and with code 0 the first rows of this front and the mark.
fn hold(network: &Network, front: &[Entry], [costs, witnesses]: [usize; 2], rng: &mut Rng) {
    let capacity = (costs / network.k()).min(witnesses / network.width());
    let count = front.len().min(capacity);
    let whole = front.len() <= capacity;
    let (vectors, paths): (Vec<_>, Vec<_>) = front[..count].iter().cloned().unzip();
    let answer = [count as u32, whole as u32];
    let written = (&vectors.concat()[..], &paths.concat()[..], &answer[..]);
    expect(network, 0, written, [costs, witnesses, 2], rng);
}

/// One call that is refused, and writes nothing.
fn refused(network: &Network, code: u32, places: [usize; 3], rng: &mut Rng) {
    expect(network, code, (&[], &[], &[]), places, rng);
}

fn expect(
    network: &Network,
    code: u32,
    written: (&[u32], &[u16], &[u32]),
    places: [usize; 3],
    rng: &mut Rng,
) {
    let file = network.encode();
    let mut costs = Lent::new(places[0], || rng.word() as u32);
    let mut witnesses = Lent::new(places[1], || rng.word() as u16);
    let mut answer = Lent::new(places[2], || rng.word() as u32);
    let said = ffi::front(&file, costs.part(), witnesses.part(), answer.part());
    let told = || format!("Front of {places:?} places, file {file:02x?}");
    assert_eq!(said, code, "{}", told());
    costs.expect(written.0, told);
    witnesses.expect(written.1, told);
    answer.expect(written.2, told);
}

/// Places for so many rows, now and then with some left over, or with more rows in one of the tables.
fn places(network: &Network, capacity: usize, rng: &mut Rng) -> [usize; 2] {
    let (k, width) = (network.k(), network.width());
    let mut places = [capacity * k, capacity * width];
    match rng.between(0, 3) {
        0 => {
            places = [
                places[0] + rng.between(0, k - 1),
                places[1] + rng.between(0, width - 1),
            ]
        }
        1 => places[0] += k * rng.between(1, 9),
        2 => places[1] += width * rng.between(1, 9),
        _ => {}
    }
    places
}

/// The plain walk lists what subsets of rows list, and has their front and witnesses; the number of trees is right.
#[test]
fn the_walk_is_the_list() {
    for seed in 0..1_500 {
        let rng = &mut Rng::new(seed);
        let mut network = draw::network_with_states(rng, 7, 11);
        if rng.once_in(2) {
            network = network.with_states(&[OPEN; 11]);
        }
        let read = Listed::read(&network.encode()).unwrap();
        let mut list = Vec::new();
        walk::Graph::new(&network).walk(&mut |tree| list.push(tree.to_vec()));
        assert_eq!(list, read.list, "{network:?}");
        let front: Vec<Entry> = read.front.into_iter().zip(read.witnesses).collect();
        assert_eq!(walked::front(&network), front, "{network:?}");
        if network.rows.iter().all(|row| row.state != MUST) {
            assert_eq!(trees::count(&network), list.len() as f64, "{network:?}");
        }
    }
}

/// The plain search has the plain walk's front, whole and cut.
#[test]
fn the_search_is_the_walk() {
    let mut longest = 0;
    let mut without_trees = 0;
    for seed in 0..3_000 {
        let rng = &mut Rng::new(seed);
        let make = [
            draw::network,
            draw::network_with_states,
            draw::network_with_streets,
        ];
        let network = make[seed as usize % 3](rng, 8, 13);
        let front = walked::front(&network);
        longest = longest.max(front.len());
        without_trees += front.is_empty() as usize;
        assert_eq!(
            search::front(&network, 512),
            (front.clone(), true),
            "{network:?}"
        );
        let capacity = rng.between(0, front.len());
        let cut = (front[..capacity].to_vec(), capacity == front.len());
        assert_eq!(search::front(&network, capacity), cut, "{network:?}");
    }
    println!("the longest front {longest}, {without_trees} networks without trees");
    assert!(longest >= 50 && without_trees >= 300);
}

/// The most trees that the walk is asked for, must rows left aside.
const MOST_TREES: f64 = 60_000.0;

/// The ends of rows that join 8 to 12 nodes: a ring, a ladder or any tree, then further rows, many of them beside others,
/// until the product of the degrees is above this.
fn pairs(rng: &mut Rng, k: usize, above: f64) -> Network {
    loop {
        let n = rng.between(if k == 4 { 11 } else { 8 }, 12) as u8;
        let mut nodes: Vec<u8> = (1..=n).collect();
        rng.shuffle(&mut nodes);
        let mut pairs: Vec<[u8; 2]> = nodes.windows(2).map(|two| [two[0], two[1]]).collect();
        match rng.between(0, 2) {
            0 => pairs.push([nodes[0], nodes[n as usize - 1]]),
            1 => pairs.extend(nodes.windows(4).step_by(2).map(|four| [four[0], four[3]])),
            _ => {
                for (i, pair) in pairs.iter_mut().enumerate() {
                    pair[0] = nodes[rng.between(0, i)];
                }
            }
        }
        // the more rows beside others, the fewer trees
        let any = rng.between(2, 12);
        let mut network = Network::new(n, vec![0; k], Vec::new());
        let row = |ends| Row::new(ends, 0, vec![0; k]);
        network.rows.extend(pairs.iter().map(|&ends| row(ends)));
        while product(&network) <= above {
            let mut ends = rng.pick(&pairs);
            if rng.once_in(any) {
                rng.shuffle(&mut nodes);
                ends = [nodes[0], nodes[1]];
            }
            rng.shuffle(&mut ends);
            network.rows.push(row(ends));
        }
        if trees::count(&network) <= MOST_TREES {
            return network;
        }
    }
}

/// The costs of a network: with many ties, wide ones, such that what one criterion gains another loses, none, or the same
/// for all rows.
#[derive(Clone, Copy, Debug, PartialEq, Eq, PartialOrd, Ord)]
enum Costs {
    Ties,
    Wide,
    Trade,
    Zero,
    Equal,
}

fn cost(rng: &mut Rng, network: &mut Network) -> Costs {
    let k = network.k();
    let by = match rng.between(0, 9) {
        0 => Costs::Zero,
        1 => Costs::Equal,
        // with four criteria few vectors would meet another
        2..=4 if k < 4 => Costs::Wide,
        5 | 6 if k < 3 => Costs::Trade,
        _ => Costs::Ties,
    };
    // fronts of some dozens of vectors, few of a hundred
    let most = match by {
        Costs::Ties if k == 4 => 1,
        Costs::Ties => rng.between(1, 2),
        Costs::Trade => rng.pick(&[3, 9]),
        _ if k == 3 => rng.pick(&[4, 8]),
        _ => rng.pick(&[9, 99, MOST as usize]),
    };
    let same: Vec<usize> = (0..k).map(|_| rng.between(1, MOST as usize)).collect();
    // rows of equal days still close streets once
    let most_street = match by {
        Costs::Equal => 0,
        _ => rng.pick(&[0, 2, 4, u16::MAX as usize]),
    };
    for row in &mut network.rows {
        row.street = rng.between(0, most_street) as u16;
        let first = rng.between(0, most);
        for (c, cost) in row.costs.iter_mut().enumerate() {
            *cost = match by {
                Costs::Ties | Costs::Wide => rng.between(0, most),
                Costs::Trade if c % 2 == 0 => first,
                Costs::Trade => most - first,
                Costs::Zero => 0,
                Costs::Equal => same[c],
            } as u32;
        }
    }
    by
}

/// Adds barred rows, and makes must rows of some rows of a spanning tree.
fn with_states(rng: &mut Rng, mut network: Network) -> Network {
    let tree = draw::forest(rng, &network);
    let one_in = rng.pick(&[2, 4, 12]);
    for row in tree {
        if rng.once_in(one_in) {
            network.rows[row as usize].state = MUST;
        }
    }
    for _ in 0..rng.between(0, 6) {
        let mut row = network.rows[rng.between(0, network.m() - 1)].clone();
        row.state = BARRED;
        if rng.once_in(2) {
            row.ends = [1, rng.between(2, network.n as usize) as u8];
        }
        network.rows.push(row);
    }
    network.version = 2;
    network
}

/// The network of a seed: k criteria, the kinds in every mix by turns, mostly one that is searched.
fn network(rng: &mut Rng, k: usize, turn: usize) -> (Network, Costs) {
    let searched = !rng.once_in(8);
    let above = searched_above(if searched { k } else { k - 1 });
    let mut network = pairs(rng, k, above);
    if rng.once_in(2) {
        network = with_states(rng, network);
    }
    let kind = |c: usize| (turn / 3usize.pow(c as u32) % 3) as u8;
    network.kinds = (0..k).map(kind).collect();
    let costs = cost(rng, &mut network);
    rng.shuffle(&mut network.rows);
    (network, costs)
}

/// The first path of the list, by Page.
fn first_of_the_list(network: &Network) -> Vec<u16> {
    let mut page = vec![0; network.width()];
    let mut answer = [0; 2];
    assert_eq!(ffi::page(&network.encode(), &mut page, &[], &mut answer), 0);
    page
}

/// Front over so many seeded networks of k criteria.
fn seeded(k: usize, networks: usize) {
    let [mut searched, mut cut, mut ties, mut longest] = [0; 4];
    let mut listed = 0.0;
    let mut mixes = BTreeSet::new();
    let mut of_costs = BTreeSet::new();
    for turn in 0..networks {
        let rng = &mut Rng::new((k * 1_000_000 + turn) as u64);
        let (network, costs) = network(rng, k, turn);
        let front = walked::front(&network);
        let size = front.len();
        if matches!(costs, Costs::Zero | Costs::Equal) {
            ties += 1;
            assert_eq!(size, 1);
            assert_eq!(front[0].1, first_of_the_list(&network));
        }
        let other = match rng.between(0, 4) {
            0 => 1,
            1 => rng.between(1, size),
            2 => size.max(2) - 1,
            3 => size + 1,
            _ => size + rng.between(1, 70),
        };
        for capacity in [size, other] {
            cut += (capacity < size) as usize;
            let places = places(&network, capacity, rng);
            hold(&network, &front, places, rng);
        }
        searched += is_searched(&network) as usize;
        longest = longest.max(size);
        listed += trees::count(&network);
        mixes.insert(network.kinds);
        of_costs.insert(costs);
    }
    println!("{networks} networks of {k} criteria, {searched} of them searched, {listed} trees");
    println!("the longest front {longest}, {cut} fronts cut, {ties} of one vector for all trees");
    assert!(searched * 10 >= networks * 8 && ties * 10 >= networks);
    assert_eq!(mixes.len(), 3usize.pow(k as u32));
    assert!(of_costs.len() >= 3);
    assert!(k == 1 || cut * 10 >= networks);
}

#[test]
fn seeded_networks_of_one_criterion() {
    seeded(1, 400);
}

#[test]
fn seeded_networks_of_two_criteria() {
    seeded(2, 800);
}

#[test]
fn seeded_networks_of_three_criteria() {
    seeded(3, 600);
}

#[test]
fn seeded_networks_of_four_criteria() {
    seeded(4, 200);
}

/// So many of the network's rows made must rows, all of one spanning tree, and so many beside that tree barred.
fn some_states(network: Network, musts: usize, barred: usize) -> Network {
    let tree = draw::forest(&mut Rng::new(1), &network);
    let mut states = vec![OPEN; network.m()];
    let beside = (0..network.m() as u16).filter(|row| !tree.contains(row));
    for row in beside.take(barred) {
        states[row as usize] = BARRED;
    }
    for &row in &tree[..musts] {
        states[row as usize] = MUST;
    }
    network.with_states(&states)
}

/// The network with costs as large as they may be.
fn scaled(mut network: Network) -> Network {
    for c in 0..network.k() {
        let most = network.rows.iter().map(|row| row.costs[c]).max().unwrap();
        for row in &mut network.rows {
            row.costs[c] *= MOST / most;
        }
    }
    network
}

/// The network with added costs anywhere in their range.
fn wide(mut network: Network) -> Network {
    let rng = &mut Rng::new(1);
    let kinds = network.kinds.clone();
    for row in &mut network.rows {
        for (cost, kind) in row.costs.iter_mut().zip(&kinds) {
            if *kind == 0 {
                *cost = rng.between(0, MOST as usize) as u32;
            }
        }
    }
    network
}

/// Front, whole, at its own size and cut, against the plain search.
fn against_the_search(networks: &[Network]) {
    for (seed, network) in (0..).zip(networks) {
        let rng = &mut Rng::new(seed);
        assert!(is_searched(network));
        let (front, whole) = search::front(network, 512);
        let (n, m, kinds) = (network.n, network.m(), &network.kinds);
        println!("{n} nodes, {m} rows, kinds {kinds:?}: {}", front.len());
        assert!(whole);
        for capacity in [512, front.len(), front.len() / 2 + 1] {
            let places = places(network, capacity, rng);
            hold(network, &front, places, rng);
        }
    }
}

const ADDED_WORST: &[u8] = &[0, 1];
const ADDED_ADDED: &[u8] = &[0, 0];
const ADDED_CLOSING: &[u8] = &[0, 2];
const ALL_THREE: &[u8] = &[0, 1, 2];

#[test]
fn street_grids_of_16_and_20_nodes() {
    against_the_search(&[
        study::grid(4, 4, 3, ADDED_WORST, 3),
        study::grid(4, 4, 3, ADDED_ADDED, 3),
        study::grid(4, 4, 3, ADDED_CLOSING, 3),
        study::grid(4, 4, 3, ALL_THREE, 3),
        study::grid(4, 5, 4, ADDED_WORST, 3),
        study::grid(4, 5, 4, ADDED_ADDED, 3),
        study::grid(4, 5, 4, ADDED_CLOSING, 3),
        study::grid(4, 5, 4, ALL_THREE, 3),
    ]);
}

#[test]
fn street_grids_of_25_to_32_nodes() {
    against_the_search(&[
        study::grid(5, 5, 4, ADDED_ADDED, 3),
        study::grid(5, 5, 4, ADDED_CLOSING, 3),
        some_states(study::grid(5, 5, 4, ALL_THREE, 3), 8, 6),
        study::grid(5, 6, 4, ADDED_WORST, 3),
        study::grid(5, 6, 4, ADDED_ADDED, 3),
        wide(study::grid(5, 6, 4, ADDED_ADDED, 3)),
        some_states(study::grid(5, 6, 4, ADDED_CLOSING, 3), 10, 5),
        scaled(study::grid(4, 8, 4, ADDED_WORST, 3)),
        scaled(study::grid(4, 8, 4, ADDED_ADDED, 3)),
        study::grid(4, 8, 4, ADDED_CLOSING, 3),
        study::grid(4, 8, 4, ALL_THREE, 3),
    ]);
}

#[test]
fn sparse_networks() {
    against_the_search(&[
        study::sparse(16, 30, ADDED_ADDED, 2),
        study::sparse(16, 30, ALL_THREE, 2),
        study::sparse(20, 46, ADDED_CLOSING, 2),
        study::sparse(20, 46, ALL_THREE, 2),
        study::sparse(26, 50, ADDED_WORST, 2),
        study::sparse(26, 50, ADDED_ADDED, 2),
        wide(study::sparse(26, 50, ADDED_CLOSING, 2)),
        study::sparse(32, 60, ADDED_ADDED, 2),
        study::sparse(32, 60, ALL_THREE, 2),
        some_states(study::sparse(32, 60, ALL_THREE, 2), 12, 16),
    ]);
}

/// The fronts that the study reports, found there by another program: how many vectors each has.
#[test]
fn fronts_of_the_study() {
    let size = |network: &Network| search::front(network, 512).0.len();
    assert_eq!(size(&study::grid(4, 4, 3, ADDED_WORST, 2)), 3);
    assert_eq!(size(&study::grid(4, 4, 3, ADDED_ADDED, 3)), 24);
    assert_eq!(size(&study::grid(4, 4, 3, ADDED_CLOSING, 3)), 8);
    assert_eq!(size(&study::grid(4, 4, 3, ALL_THREE, 2)), 44);
    assert_eq!(size(&study::grid(4, 8, 4, ADDED_WORST, 2)), 5);
    assert_eq!(size(&study::sparse(16, 30, ALL_THREE, 2)), 52);
    assert_eq!(size(&study::sparse(20, 46, ADDED_ADDED, 2)), 87);
    assert_eq!(size(&study::complete(8, &[0, 0, 0], 2)), 121);
    assert_eq!(size(&study::complete(12, ADDED_ADDED, 2)), 43);
}

/// All costs equal, and all rows in one street or off the road: one vector, and the first path of the list, which has some
/// billion trees.
#[test]
fn large_networks_of_one_vector() {
    let rng = &mut Rng::new(1);
    for (kinds, cost, street) in [
        (ADDED_WORST, 0, 7),
        (ADDED_ADDED, MOST, 7),
        (ADDED_CLOSING, 3, 7),
        (ADDED_CLOSING, 3, 0),
        (ALL_THREE, MOST, 7),
        (ALL_THREE, MOST, 0),
    ] {
        for mut network in [
            study::grid(4, 8, 4, kinds, 3),
            study::sparse(32, 60, kinds, 2),
            study::complete(14, kinds, 2),
            some_states(study::grid(5, 6, 4, kinds, 3), 10, 5),
        ] {
            for row in &mut network.rows {
                row.costs.fill(cost);
                row.street = street;
            }
            let vector = kinds.iter().map(|&kind| match (kind, street) {
                (0, _) | (2, 0) => cost * network.width() as u32,
                _ => cost,
            });
            let front = [(vector.collect(), first_of_the_list(&network))];
            for capacity in [1, 2, 64] {
                let places = places(&network, capacity, rng);
                hold(&network, &front, places, rng);
            }
        }
    }
}

/// What Front refuses is refused before any search: a row from a node to itself, no tree at all, must rows in a ring, a table
/// too short for a row, a short answer.
#[test]
fn refusals_of_large_networks() {
    let rng = &mut Rng::new(1);
    let grid = study::grid(4, 8, 4, ALL_THREE, 3);
    let places = [512 * grid.k(), 512 * grid.width(), 2];
    refused(&grid, 11, [grid.k() - 1, places[1], 2], rng);
    refused(&grid, 11, [places[0], grid.width() - 1, 2], rng);
    refused(&grid, SHORT_ANSWER, [places[0], places[1], 1], rng);

    let mut loops = grid.clone();
    loops.rows[17].ends = [5, 5];
    refused(&loops, 6, places, rng);

    let mut halves = study::complete(16, ALL_THREE, 2);
    let other = halves.rows.clone().into_iter().map(|mut row| {
        row.ends = row.ends.map(|end| end + 16);
        row
    });
    halves.rows.extend(other.collect::<Vec<Row>>());
    halves.n = 32;
    assert!(is_searched(&halves));
    refused(&halves, 12, places, rng);

    let ring = study::complete(14, ALL_THREE, 2);
    let in_ring = |row: &Row| row.ends.iter().all(|end| *end <= 3);
    let states: Vec<u8> = ring
        .rows
        .iter()
        .map(|row| in_ring(row) as u8 * MUST)
        .collect();
    let ring = ring.with_states(&states);
    assert!(is_searched(&ring));
    refused(&ring, 12, places, rng);
}
