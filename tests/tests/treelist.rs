//! treelist, as `rt ci` builds it, run as a program: what it prints is compared byte for byte with an independent
//! printing of document 01's printout.

use planner_tests::costs;
use planner_tests::draw;
use planner_tests::file::{network_a, Network, Row, BARRED, MUST, OPEN};
use planner_tests::operations::Listed;
use planner_tests::program;
use planner_tests::rng::Rng;

const MOST_BYTES: usize = 65_536;
const FRONT_ROWS: usize = 512;

fn run(input: &[u8]) -> String {
    let written = program::run("treelist", input);
    assert_eq!(written.err, "");
    String::from_utf8(written.out).unwrap()
}

fn numbers<T: ToString>(list: &[T]) -> String {
    list.iter().map(|x| format!(" {}", x.to_string())).collect()
}

/// The printout by document 01, with the first tree of the list beside each vector of the front (document 02, #101).
fn printed(input: &[u8]) -> String {
    let read = Listed::read(&input[..input.len().min(MOST_BYTES)]);
    let listed = match &read {
        Err(number) => return format!("refused {number}\n"),
        Ok(listed) if listed.list.is_empty() => return "refused 12\n".to_string(),
        Ok(listed) => listed,
    };
    let network = &listed.network;
    let mut text = format!("network {} {} {}\n", network.n, network.m(), network.k());
    for tree in &listed.list {
        let vector = costs::vector(network, tree);
        text += &format!("tree{} cost{}\n", numbers(tree), numbers(&vector));
    }
    let rows = listed.front.len().min(FRONT_ROWS);
    for (vector, witness) in listed.front.iter().zip(&listed.witnesses).take(rows) {
        text += &format!("front{} tree{}\n", numbers(vector), numbers(witness));
    }
    let mark = if listed.front.len() <= FRONT_ROWS {
        "whole"
    } else {
        "cut"
    };
    text + &format!("end trees {} front {rows} {mark}\n", listed.list.len())
}

fn hold(input: &[u8]) -> String {
    let text = run(input);
    assert_eq!(text, printed(input), "{input:02x?}");
    text
}

fn row(ends: [u8; 2], costs: &[u32]) -> Row {
    Row::new(ends, 0, costs.to_vec())
}

fn complete(n: u8) -> Network {
    let pairs = (1..=n).flat_map(|a| (a + 1..=n).map(move |b| [a, b]));
    let rows = pairs.map(|ends| row(ends, &[ends[0] as u32 * 7 % 5]));
    Network::new(n, vec![0], rows.collect())
}

#[test]
fn network_a_of_document_01() {
    let text = "network 3 4 2\ntree 0 2 cost 9 7\ntree 0 3 cost 7 7\ntree 1 2 cost 11 5\ntree 1 3 cost 9 6\n\
        tree 2 3 cost 8 6\nfront 7 7 tree 0 3\nfront 8 6 tree 2 3\nfront 11 5 tree 1 2\nend trees 5 front 3 whole\n";
    assert_eq!(hold(&network_a().encode()), text);
}

#[test]
fn refusals_stand_alone() {
    assert_eq!(hold(&[]), "refused 1\n");
    let file = network_a().encode();
    let changed = |at: usize, to: u8| {
        let mut other = file.clone();
        other[at] = to;
        other
    };
    // the version, the length field, n, the rows' number, a kind, an end, a cost's high byte
    let faults = [(0, 3), (4, 55), (5, 33), (7, 5), (9, 3), (11, 0), (15, 1)];
    for (number, (at, to)) in (1..).zip(faults) {
        assert_eq!(hold(&changed(at, to)), format!("refused {number}\n"));
    }
    let no_rows = Network::new(2, vec![0], vec![]);
    assert_eq!(hold(&no_rows.encode()), "refused 12\n");
}

/// Version 2: the printout has the same form, over the trees that keep the states.
#[test]
fn network_a_with_states() {
    let stated = |states: [u8; 4]| network_a().with_states(&states).encode();
    let text = "network 3 4 2\ntree 1 3 cost 9 6\ntree 2 3 cost 8 6\nfront 8 6 tree 2 3\nend trees 2 front 1 whole\n";
    assert_eq!(hold(&stated([BARRED, OPEN, OPEN, MUST])), text);
    assert_eq!(hold(&stated([MUST, MUST, OPEN, OPEN])), "refused 12\n");
    assert_eq!(hold(&stated([BARRED; 4])), "refused 12\n");
    assert_eq!(hold(&stated([OPEN, OPEN, OPEN, 3])), "refused 14\n");
    assert_eq!(hold(&stated([OPEN; 4])), hold(&network_a().encode()));
}

#[test]
fn a_longer_input_is_cut() {
    let mut file = vec![0; MOST_BYTES + 1];
    file[0] = 1;
    file[1..5].copy_from_slice(&(MOST_BYTES as u32 - 5).to_be_bytes());
    file[5] = 2;
    file[8] = 1;
    assert_eq!(hold(&file), "refused 4\n");
}

#[test]
fn several_pages() {
    let text = hold(&complete(5).encode());
    assert_eq!(
        text.lines()
            .filter(|line| line.starts_with("tree "))
            .count(),
        125
    );
    hold(&complete(6).encode());
}

#[test]
fn a_front_above_512_rows() {
    // 41 rows from the plant and 41 behind them: each pair of rows has a vector of its own on one line
    let near = (0..41).map(|i| row([1, 2], &[i, 40 - i]));
    let far = (0..41).map(|i| row([2, 3], &[41 * i, 41 * (40 - i)]));
    let network = Network::new(3, vec![0, 0], near.chain(far).collect());
    let text = hold(&network.encode());
    assert!(text.ends_with("end trees 1681 front 512 cut\n"));
}

#[test]
fn seeded_networks() {
    let mut rng = Rng::new(5);
    for _ in 0..400 {
        hold(&draw::network(&mut rng, 6, 11).encode());
    }
    for _ in 0..400 {
        hold(&draw::network_with_states(&mut rng, 6, 11).encode());
    }
}
