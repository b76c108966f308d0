//! The table of fronts in seconds: the networks of the study of Front's search, the library beside the plain walk and the
//! plain search. Each is measured in a process of its own, which is stopped at a limit.

use planner_tests::costs::Entry;
use planner_tests::ffi;
use planner_tests::file::Network;
use planner_tests::{search, study, trees, walked};

use crate::limited::{self, LIMIT};
use crate::FRONT_ROWS;

/// The most trees that the walk is asked for.
const MOST_WALKED: f64 = 3_000_000.0;

/// The instances that the study measured.
const GRID: u64 = 3;
const OTHER: u64 = 2;

struct Line {
    name: String,
    network: Network,
}

fn lines() -> Vec<Line> {
    let mixes: [&[u8]; 4] = [&[0, 1], &[0, 0], &[0, 2], &[0, 1, 2]];
    let mut lines = Vec::new();
    let mut line = |name: String, network| lines.push(Line { name, network });
    for (down, across, beside) in [(4, 4, 3), (4, 5, 4), (5, 5, 4), (5, 6, 4), (4, 8, 4)] {
        for kinds in mixes {
            let network = study::grid(down, across, beside, kinds, GRID);
            line(
                format!("street grid of {down} by {across}, {beside} beside"),
                network,
            );
        }
    }
    for (n, m) in [(16, 30), (20, 46), (26, 50), (32, 60)] {
        for kinds in mixes {
            let network = study::sparse(n, m, kinds, OTHER);
            line(format!("sparse, {n} nodes and {m} rows"), network);
        }
    }
    for (kinds, sizes) in [(&[0, 0][..], &[8, 10, 12, 14][..]), (&[0, 0, 0], &[8, 10])] {
        for &n in sizes {
            let network = study::complete(n, kinds, OTHER);
            line(format!("complete graph of {n} nodes"), network);
        }
    }
    lines
}

/// The ways to a front.
#[derive(Clone, Copy)]
enum Way {
    Library,
    Walk,
    Search,
}

impl Way {
    fn name(self) -> &'static str {
        match self {
            Way::Library => "library",
            Way::Walk => "walk",
            Way::Search => "search",
        }
    }

    fn of(name: &str) -> Way {
        let ways = [Way::Library, Way::Walk, Way::Search];
        let way = ways.into_iter().find(|way| way.name() == name);
        way.expect("a way is library, walk or search")
    }

    fn front(self, network: &Network, file: &[u8]) -> Vec<Entry> {
        match self {
            Way::Library => library(network, file),
            Way::Walk => walked::front(network),
            Way::Search => search::front(network, FRONT_ROWS).0,
        }
    }
}

fn library(network: &Network, file: &[u8]) -> Vec<Entry> {
    let (k, width) = (network.k(), network.width());
    let mut costs = vec![0; FRONT_ROWS * k];
    let mut witnesses = vec![0; FRONT_ROWS * width];
    let mut answer = [0; 2];
    assert_eq!(ffi::front(file, &mut costs, &mut witnesses, &mut answer), 0);
    let vectors = costs.chunks(k).map(<[u32]>::to_vec);
    let trees = witnesses.chunks(width).map(<[u16]>::to_vec);
    vectors.zip(trees).take(answer[0] as usize).collect()
}

/// A number that another front does not have by chance.
fn digest(front: &[Entry]) -> u64 {
    let numbers = front.iter().flat_map(|(vector, tree)| {
        let rows = tree.iter().map(|&row| row as u64);
        vector.iter().map(|&cost| cost as u64).chain(rows)
    });
    numbers.fold(0, |sum: u64, number| {
        sum.wrapping_mul(0x9e37_79b9_7f4a_7c15)
            .wrapping_add(number + 1)
    })
}

/// One way over the network of one line, for the process that asked: the seconds, the front's size and its digest.
pub fn measure(line: &str, way: &str) {
    let at: usize = line.parse().expect("the number of a line");
    let network = &lines()[at].network;
    let file = network.encode();
    let way = Way::of(way);
    let (seconds, front) = limited::shortest(|| way.front(network, &file));
    println!("{seconds} {} {}", front.len(), digest(&front));
}

/// What a process told; nothing if it did not end in time.
struct Told {
    seconds: f64,
    size: usize,
    digest: u64,
}

fn ask(line: usize, way: Way) -> Option<Told> {
    let words = limited::ask(&["front", &line.to_string(), way.name()])?;
    Some(Told {
        seconds: words[0].parse().unwrap(),
        size: words[1].parse().unwrap(),
        digest: words[2].parse().unwrap(),
    })
}

/// The table. All ways that ended have the same vectors and witnesses.
pub fn table() {
    println!(
        "Front: seconds a call, at most {} of each way; kinds 0 added, 1 worst, 2 closing; plain Rust walks up to 3,000,000 trees",
        LIMIT.as_secs()
    );
    println!(
        "{:36} {:>5} {:>9} {:>6} {:>12} {:>12} {:>12}",
        "", "kinds", "trees", "front", "library", "plain walk", "plain search"
    );
    for (at, line) in lines().iter().enumerate() {
        let trees = trees::count(&line.network);
        let library = ask(at, Way::Library);
        let search = ask(at, Way::Search);
        let walked = trees <= MOST_WALKED;
        let walk = if walked { ask(at, Way::Walk) } else { None };
        let ended: Vec<&Told> = [&library, &search, &walk].into_iter().flatten().collect();
        for told in &ended {
            let same = told.size == ended[0].size && told.digest == ended[0].digest;
            assert!(same, "{}: not the same front", line.name);
        }
        let size = ended
            .first()
            .map_or("?".to_string(), |told| told.size.to_string());
        let seconds = |told: &Option<Told>| limited::print(told.as_ref().map(|told| told.seconds));
        let kinds: String = line.network.kinds.iter().map(u8::to_string).collect();
        println!(
            "{:36} {kinds:>5} {trees:>9.1e} {size:>6} {:>12} {:>12} {:>12}",
            line.name,
            seconds(&library),
            if walked {
                seconds(&walk)
            } else {
                "-".to_string()
            },
            seconds(&search)
        );
    }
}
