//! The independent code held to itself and to what document 01 says of network A, without the library.

use planner_tests::costs;
use planner_tests::draw;
use planner_tests::file::{network_a, Network, OPEN};
use planner_tests::operations::Listed;
use planner_tests::reading;
use planner_tests::rng::Rng;
use planner_tests::trees;

#[test]
fn a_file_is_read_back() {
    for seed in 0..2_000 {
        let network = draw::network(&mut Rng::new(seed), 32, 256);
        assert_eq!(reading::network(&network.encode()), Ok(network));
        let network = draw::network_with_states(&mut Rng::new(seed), 32, 256);
        assert_eq!(reading::network(&network.encode()), Ok(network));
    }
}

/// The tree lines and the front lines of document 01's printout.
#[test]
fn network_a_of_document_01() {
    let Ok(read) = Listed::read(&network_a().encode()) else {
        panic!()
    };
    assert_eq!(read.list, [[0, 2], [0, 3], [1, 2], [1, 3], [2, 3]]);
    let vectors = read
        .list
        .iter()
        .map(|tree| costs::vector(&read.network, tree));
    let printed = [[9, 7], [7, 7], [11, 5], [9, 6], [8, 6]];
    assert!(vectors.eq(printed));
    assert_eq!(read.front, [[7, 7], [8, 6], [11, 5]]);
    assert_eq!(read.witnesses, [[0, 3], [2, 3], [1, 2]]);
    assert!(costs::dominates(&[7, 7], &[9, 7]));
    assert!(!costs::dominates(&[7, 7], &[7, 7]));
    assert!(!costs::dominates(&[7, 7], &[8, 6]) && !costs::dominates(&[8, 6], &[7, 7]));
}

/// Shows every sequence of the items behind the first few.
fn sequences(items: &mut [u16], first: usize, show: &mut impl FnMut(&[u16])) {
    if first == items.len() {
        return show(items);
    }
    for i in first..items.len() {
        items.swap(first, i);
        sequences(items, first + 1, show);
        items.swap(first, i);
    }
}

fn minimal_sequences(network: &Network, tree: &[u16]) -> Vec<Vec<u16>> {
    let mut minimal = Vec::new();
    sequences(&mut tree.to_vec(), 0, &mut |rows| {
        if trees::is_minimal(network, rows) {
            minimal.push(rows.to_vec());
        }
    });
    minimal
}

/// Of all sequences of a spanning tree's rows exactly one is a minimal path by the definition, and it is the one that
/// the walk by pivots gives.
#[test]
fn each_tree_has_one_minimal_path() {
    let mut trees = 0;
    for seed in 0..400 {
        let rng = &mut Rng::new(seed);
        let network = draw::network(rng, 6, 10);
        let tree = draw::forest(rng, &network);
        if tree.len() == network.width() {
            assert!(trees::is_tree(&network, &tree));
            let path = trees::minimal_path(&network, &tree);
            assert_eq!(minimal_sequences(&network, &tree), [path]);
            trees += 1;
        }
    }
    assert!(trees > 200);
}

/// The list is strictly ascending, and there is a tree exactly if the reached nodes are all.
#[test]
fn the_list_ascends() {
    for seed in 0..1_000 {
        let network = draw::network(&mut Rng::new(seed), 6, 10);
        let list = trees::list(&network);
        let keys: Vec<_> = list
            .iter()
            .map(|tree| trees::keys(&network, tree))
            .collect();
        assert!(keys.windows(2).all(|two| two[0] < two[1]));
        assert!(list.iter().all(|tree| trees::is_minimal(&network, tree)));
        let reached = trees::reached(&network).len();
        assert_eq!(list.is_empty(), reached < network.n as usize);
    }
}

/// With states: the list is the plain list without the trees that break a state, and there is a tree exactly if the reached
/// nodes are all and the must rows have no cycle. A tree that is grown with must rows first and barred rows last is one of
/// them, if there are any.
#[test]
fn the_list_with_states() {
    let mut empty = 0;
    let mut by_a_cycle = 0;
    for seed in 0..2_000 {
        let rng = &mut Rng::new(seed);
        let network = draw::network_with_states(rng, 6, 10);
        let plain = network.clone().with_states(&vec![OPEN; network.m()]);
        let mut kept = trees::list(&plain);
        kept.retain(|tree| trees::keeps_states(&network, tree));
        assert_eq!(trees::list(&network), kept);

        let all = trees::reached(&network).len() == network.n as usize;
        let cycle = trees::must_cycle(&network);
        assert_eq!(kept.is_empty(), !all || cycle);
        empty += kept.is_empty() as usize;
        by_a_cycle += (all && cycle) as usize;

        let layout = draw::layout(rng, &network);
        let found = layout.len() == network.width() && trees::keeps_states(&network, &layout);
        assert_eq!(found, !kept.is_empty());
    }
    assert!(empty >= 500 && by_a_cycle >= 100);
}
