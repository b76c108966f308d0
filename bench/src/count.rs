//! The table of counts in seconds: the library beside a determinant in plain Rust, which is no search, and beside the whole list
//! by its pages. Each network is counted in a process of its own, which is stopped at a limit; of the networks of a line the
//! slowest is told.

use std::hint::black_box;

use planner_tests::file::Network;
use planner_tests::rng::Rng;
use planner_tests::shapes::{
    any_names, bridged, chained, complete, dense, grid, ladder, line, of_document_002, parted,
    regular, renamed,
};
use planner_tests::{counts, draw, ffi, operations, pages, study};

use crate::limited;
use crate::networks::any_rows;
use crate::TREES_A_PAGE;

/// The most trees that are listed.
const MOST_LISTED: u32 = 20_000_000;

struct Line {
    name: String,
    networks: Vec<Network>,
}

fn lines() -> Vec<Line> {
    let mut lines = Vec::new();
    let mut add = |name: String, networks| lines.push(Line { name, networks });
    for n in [8, 9, 10, 11, 12, 16, 23] {
        add(format!("complete graph of {n} nodes"), vec![complete(n)]);
    }
    for n in [24, 32] {
        add(format!("256 rows of that of {n} nodes"), vec![dense(n)]);
    }
    for (down, across) in [(4, 8), (5, 5), (5, 6), (4, 7)] {
        let network = grid(down, across);
        add(format!("grid of {down} by {across}"), vec![network.clone()]);
        add(
            format!("grid of {down} by {across}, any names"),
            named(&network, 2),
        );
    }
    add("ladder of 32 nodes".to_string(), vec![ladder(32)]);
    add(
        "ladder of 32 nodes, any names".to_string(),
        named(&ladder(32), 4),
    );
    for rows in [48, 64, 256] {
        let networks = any_rows(32, rows).take(8).collect();
        add(format!("random, 32 nodes and {rows} rows"), networks);
    }
    add(
        "document 002, 20 nodes and 46 rows".to_string(),
        vec![of_document_002()],
    );
    add(
        "sparse, 20 nodes and 46 rows".to_string(),
        (0..4).map(|i| study::sparse(20, 46, &[0], i)).collect(),
    );
    for (n, degree) in [(20, 4), (22, 4), (28, 3), (30, 3), (32, 3), (16, 5)] {
        let networks = (0..3).map(|seed| regular(n, degree, &mut Rng::new(seed)));
        add(
            format!("{n} nodes of {degree} rows each"),
            networks.collect(),
        );
    }
    // nodes put into rows, and those where rows branch off named last: they are the first that the search takes away
    for (n, degree, to) in [(24, 3, 32), (18, 4, 22), (16, 4, 26), (12, 5, 25)] {
        let rng = &mut Rng::new(0);
        let network = parted(&regular(n, degree, rng), to, rng);
        add(
            format!("{n} of {degree} rows each, rows parted"),
            vec![network],
        );
    }
    for n in [16, 20, 24, 28] {
        let last_answered = |seed| {
            let rng = &mut Rng::new(seed);
            let joined = any_names(line(&vec![1; n - 1]).with_states(&[]), rng);
            let [answered, _] = draw::up_to_the_limit(rng, joined, 50);
            answered
        };
        add(
            format!("{n} nodes, last below the limit"),
            (0..3).map(last_answered).collect(),
        );
    }
    for (name, block) in [
        ("complete of 16", complete(16)),
        ("16 nodes of 5", regular(16, 5, &mut Rng::new(0))),
        ("16 nodes of 4", regular(16, 4, &mut Rng::new(0))),
        ("12 nodes of 4", regular(12, 4, &mut Rng::new(0))),
        ("16 nodes of 3", regular(16, 3, &mut Rng::new(0))),
        ("grid of 4 by 4", grid(4, 4)),
    ] {
        let two = bridged(&[block.clone(), block]);
        let mut networks = named(&two, 3);
        networks.push(renamed(two.clone(), &by_turns(two.n)));
        networks.push(two);
        add(format!("two of {name}, a bridge"), networks);
    }
    let [four, five, pair] = [complete(4), complete(5), line(&[2])];
    let at_the_limit = [vec![five.clone(); 3], vec![four.clone(); 2], vec![pair; 3]].concat();
    for (name, blocks) in [
        ("4,000,000,000 trees", at_the_limit),
        ("complete of 4", vec![four; 10]),
        ("complete of 5", vec![five; 7]),
        ("8 nodes of 3", vec![regular(8, 3, &mut Rng::new(0)); 4]),
    ] {
        let chain = chained(&blocks);
        let mut networks = named(&chain, 4);
        networks.push(chain);
        add(format!("chain of blocks, {name}"), networks);
    }
    lines
}

/// A network with its nodes named in so many ways.
fn named(network: &Network, ways: u64) -> Vec<Network> {
    let name = |seed| any_names(network.clone(), &mut Rng::new(seed));
    (0..ways).map(name).collect()
}

/// Names by which the nodes of the first half and of the second come by turns.
fn by_turns(n: u8) -> Vec<u8> {
    let (first, second) = ((1..=n).step_by(2), (2..=n).step_by(2));
    first.chain(second).collect()
}

/// What is done with one network of one line, for the process that asked: counted, which tells the seconds, the code and the
/// number, or listed, which tells the seconds.
pub fn measure(line: &str, network: &str, way: &str) {
    let place = |word: &str| word.parse::<usize>().expect("a number");
    let network = &lines()[place(line)].networks[place(network)];
    match way {
        "count" => {
            let file = network.encode();
            let mut answer = [0];
            let (seconds, code) = limited::shortest(|| ffi::count(&file, &mut answer));
            println!("{seconds} {code} {}", answer[0]);
        }
        "list" => {
            let list = || {
                pages::each(network, TREES_A_PAGE[0], &mut |page| {
                    black_box(page);
                })
            };
            println!("{}", limited::shortest(list).0);
        }
        _ => panic!("a way is count or list"),
    }
}

/// What a process told of a count: its seconds, and what it came to.
fn counted(line: usize, network: usize) -> Option<(f64, Result<u32, u32>)> {
    let words = limited::ask(&["count", &line.to_string(), &network.to_string(), "count"])?;
    let answer = match words[1].parse().unwrap() {
        0 => Ok(words[2].parse().unwrap()),
        number => Err(number),
    };
    Some((words[0].parse().unwrap(), answer))
}

fn listed(line: usize, network: usize) -> Option<f64> {
    let words = limited::ask(&["count", &line.to_string(), &network.to_string(), "list"])?;
    Some(words[0].parse().unwrap())
}

/// The table. All counts that ended are those of the determinant.
pub fn table() {
    println!(
        "Count: seconds a call, at most {}, of the slowest network of the line; the whole list by its pages up to 20,000,000 trees",
        limited::LIMIT.as_secs()
    );
    println!(
        "{:36} {:>2} {:>5} {:>4} {:>10} {:>9} {:>11} {:>9} {:>9}",
        "", "of", "nodes", "rows", "answer", "library", "determinant", "ratio", "list"
    );
    for (at, line) in lines().iter().enumerate() {
        let mut slowest = (0, Some(0.0));
        for (place, network) in line.networks.iter().enumerate() {
            let told = counted(at, place);
            if let Some((_, answer)) = told {
                let expected = operations::count(&network.encode());
                assert_eq!(answer, expected, "{}: not the same count", line.name);
            }
            let seconds = told.map(|(seconds, _)| seconds);
            // one that did not end in time is the slowest of all
            let slower = |most: f64| seconds.is_none_or(|seconds| seconds > most);
            if slowest.1.is_some_and(slower) {
                slowest = (place, seconds);
            }
        }
        let (place, seconds) = slowest;
        let network = &line.networks[place];
        let expected = operations::count(&network.encode());
        let (plain, _) = limited::shortest(|| black_box(counts::count(network)));
        let ratio = seconds.map_or("-".to_string(), |seconds| format!("{:.1}", seconds / plain));
        let list = match expected {
            Ok(1..=MOST_LISTED) => limited::print(listed(at, place)),
            _ => "-".to_string(),
        };
        println!(
            "{:36} {:>2} {:>5} {:>4} {:>10} {:>9} {plain:>11.6} {ratio:>9} {list:>9}",
            line.name,
            line.networks.len(),
            network.n,
            network.m(),
            expected.unwrap_or_else(|number| number),
            limited::print(seconds),
        );
    }
}
