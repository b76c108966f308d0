//! Measures the proved library beside plain Rust, both built for release, in one run, and prints tables; with the argument
//! 'front' the fronts in seconds only, with 'count' the counts, with 'index' the indexes, with 'dimacs' the edge files, with 'survey'
//! the surveys. It tests nothing but that both list the same trees, have the same fronts, count alike, and build, fetch, read and
//! write the same.

mod count;
mod dimacs;
mod index;
mod limited;
mod networks;
mod seconds;
mod survey;

use std::hint::black_box;
use std::time::{Duration, Instant};

use planner_tests::file::Network;
use planner_tests::walk::Graph;
use planner_tests::{ffi, pages, walked};

/// The trees of a page: as treelist has them, and so many that what a call does once hardly counts.
const TREES_A_PAGE: [usize; 2] = [64, 4096];

/// The plain walk's list, page by page.
fn plain_pages(network: &Network, trees_a_page: usize, show: &mut impl FnMut(&[u16])) {
    let graph = Graph::new(network);
    let width = graph.width;
    let mut page = vec![0; trees_a_page * width];
    let mut filled = 0;
    graph.walk(&mut |tree| {
        if filled == page.len() {
            show(&page);
            filled = 0;
        }
        page[filled..filled + width].copy_from_slice(tree);
        filled += width;
    });
    show(&page[..filled]);
}

/// How many rows a list has, and a number that another list does not have by chance.
fn digest(pages: impl Fn(&mut dyn FnMut(&[u16]))) -> (usize, u64) {
    let mut rows = 0;
    let mut sum = 0u64;
    pages(&mut |page| {
        rows += page.len();
        for &row in page {
            sum = sum
                .wrapping_mul(0x9e37_79b9_7f4a_7c15)
                .wrapping_add(row as u64 + 1);
        }
    });
    (rows, sum)
}

/// The shortest of several times that each of the two takes, one after the other.
fn shortest(mut first: impl FnMut(), mut second: impl FnMut()) -> [Duration; 2] {
    let mut best = [Duration::MAX; 2];
    let begun = Instant::now();
    while begun.elapsed() < Duration::from_millis(1_500) {
        for (best, work) in best
            .iter_mut()
            .zip([&mut first as &mut dyn FnMut(), &mut second])
        {
            let start = Instant::now();
            work();
            *best = start.elapsed().min(*best);
        }
    }
    best
}

/// Keeps the compiler from leaving out a page that nobody reads.
fn use_page(page: &[u16]) {
    black_box(page);
}

fn compare_lists(name: &str, network: &Network) {
    let times = TREES_A_PAGE.map(|trees| {
        let library = digest(|show| pages::each(network, trees, &mut |page| show(page)));
        let plain = digest(|show| plain_pages(network, trees, &mut |page| show(page)));
        assert_eq!(library, plain, "{name}: not the same list");
        let times = shortest(
            || pages::each(network, trees, &mut |page| use_page(page)),
            || plain_pages(network, trees, &mut |page| use_page(page)),
        );
        (library.0 / network.width(), times)
    });
    let trees = times[0].0;
    let each = |time: Duration| time.as_secs_f64() * 1e9 / trees as f64;
    print!("{name:36} {trees:9}");
    for (_, [ours, theirs]) in times {
        let ratio = ours.as_secs_f64() / theirs.as_secs_f64();
        print!(" {:9.1} {:9.1} {ratio:7.2}", each(ours), each(theirs));
    }
    println!();
}

fn print_ratio(name: &str, trees: usize, ours: Duration, theirs: Duration) {
    let each = |time: Duration| time.as_secs_f64() * 1e9 / trees as f64;
    let ratio = ours.as_secs_f64() / theirs.as_secs_f64();
    println!(
        "{name:36} {trees:9} {:12.1} {:12.1} {ratio:8.2}",
        each(ours),
        each(theirs)
    );
}

/// How many calls that write bytes are measured together.
const CALLS: usize = 1_000;

/// Calls of the library and of plain Rust that write bytes, by turns; what is written.
fn compare_calls<const N: usize>(
    name: &str,
    inputs: [&[u8]; N],
    library: fn([&[u8]; N], &mut [u8], &mut [u32]) -> u32,
    plain: fn([&[u8]; N], &mut [u8]) -> Result<usize, u32>,
) -> Vec<u8> {
    let mut ours = vec![0; 8_192];
    let mut theirs = ours.clone();
    let mut answer = [0];
    assert_eq!(library(inputs, &mut ours, &mut answer), 0);
    assert_eq!(plain(inputs, &mut theirs), Ok(answer[0] as usize));
    assert!(ours == theirs, "{name}: not the same");
    let written = ours[..answer[0] as usize].to_vec();
    let times = shortest(
        || {
            for _ in 0..CALLS {
                assert_eq!(library(black_box(inputs), &mut ours, &mut [0]), 0);
                black_box(&ours);
            }
        },
        || {
            for _ in 0..CALLS {
                assert!(plain(black_box(inputs), &mut theirs).is_ok());
                black_box(&theirs);
            }
        },
    );
    print_ratio(name, CALLS, times[0], times[1]);
    written
}

/// A call with a page of one tree, from the first on and behind the first tree.
fn short_page(name: &str, network: &Network) {
    let file = network.encode();
    let mut page = vec![0; network.width()];
    let mut answer = [0; 2];
    assert_eq!(ffi::page(&file, &mut page, &[], &mut answer), 0);
    let first = page.clone();
    let mut behind = page.clone();
    let calls = 1_000;
    let mut call = |page: &mut [u16], start: &[u16]| {
        for _ in 0..calls {
            assert_eq!(ffi::page(&file, page, start, &mut [0; 2]), 0);
            use_page(page);
        }
    };
    let call = &mut call;
    let mut best = [Duration::MAX; 2];
    for _ in 0..500 {
        for (best, (page, start)) in best
            .iter_mut()
            .zip([(&mut page, &[][..]), (&mut behind, &first[..])])
        {
            let begun = Instant::now();
            call(page, start);
            *best = begun.elapsed().min(*best);
        }
    }
    let each = |time: Duration| time.as_secs_f64() * 1e9 / calls as f64;
    println!("{name:36} {:12.0} {:12.0}", each(best[0]), each(best[1]));
}

/// The first page of a network on which the plain walk would not end.
fn first_page(name: &str, network: &Network) {
    let file = network.encode();
    let mut page = vec![0; TREES_A_PAGE[0] * network.width()];
    let mut answer = [0; 2];
    let mut times = Vec::new();
    for _ in 0..50 {
        let start = Instant::now();
        assert_eq!(ffi::page(&file, &mut page, &[], &mut answer), 0);
        times.push(start.elapsed());
        black_box(&page);
    }
    times.sort();
    let ms = |time: Duration| time.as_secs_f64() * 1e3;
    println!(
        "{name:36} {:9} {:12.3} {:12.3}",
        answer[0],
        ms(times[25]),
        ms(times[49])
    );
}

/// The rows of a front, as treelist has them.
const FRONT_ROWS: usize = 512;

fn compare_fronts(name: &str, network: &Network) {
    let file = network.encode();
    let (k, width) = (network.k(), network.width());
    let mut costs = vec![0; FRONT_ROWS * k];
    let mut witnesses = vec![0; FRONT_ROWS * width];
    let mut answer = [0; 2];
    let mut trees = 0;
    plain_pages(network, TREES_A_PAGE[0], &mut |page| {
        trees += page.len() / width
    });
    let [ours, theirs] = shortest(
        || {
            assert_eq!(
                ffi::front(&file, &mut costs, &mut witnesses, &mut answer),
                0
            )
        },
        || drop(black_box(walked::front(network))),
    );
    let expected: Vec<u32> = walked::front(network)
        .into_iter()
        .flat_map(|(vector, _)| vector)
        .collect();
    assert_eq!(
        costs[..answer[0] as usize * k],
        expected,
        "{name}: not the same front"
    );
    print_ratio(
        &format!("{name}: front of {}", answer[0]),
        trees,
        ours,
        theirs,
    );
}

fn main() {
    let arguments: Vec<String> = std::env::args().skip(1).collect();
    let words: Vec<&str> = arguments.iter().map(String::as_str).collect();
    match words[..] {
        [] => {
            tables();
            println!();
            index::tables();
            println!();
            dimacs::table();
            println!();
            survey::table();
            println!();
            seconds::table();
            println!();
            count::table();
        }
        ["front"] => seconds::table(),
        ["front", line, way] => seconds::measure(line, way),
        ["count"] => count::table(),
        ["index"] => index::tables(),
        ["dimacs"] => dimacs::table(),
        ["survey"] => survey::table(),
        ["count", line, network, way] => count::measure(line, network, way),
        _ => {
            eprintln!("usage: bench/run [front | count | index | dimacs | survey]");
            std::process::exit(2);
        }
    }
}

fn tables() {
    let [short, long] = TREES_A_PAGE;
    println!("Page: the whole list, nanoseconds a tree");
    println!("{:46} pages of {short:<20} pages of {long}", "");
    println!(
        "{:36} {:>9} {:>9} {:>9} {:>7} {:>9} {:>9} {:>7}",
        "", "trees", "library", "plain", "ratio", "library", "plain", "ratio"
    );
    compare_lists("complete graph of 7 nodes", &networks::complete(7, &[0]));
    compare_lists("complete graph of 8 nodes", &networks::complete(8, &[0]));
    compare_lists(
        "random, 10 nodes and 25 rows",
        &networks::random(10, 25, &[0]),
    );
    compare_lists("ladder of 12 nodes", &networks::ladder(12, &[0]));
    compare_lists("grid of 4 by 4 nodes", &networks::grid(4, 4, &[0]));
    compare_lists("line of 12 nodes by 3 rows each", &networks::line(12, 3));
    compare_lists("streets, 20 nodes and 28 rows", &networks::streets(20, 28));
    compare_lists(
        "complete, 8 nodes, 2 must, 4 barred",
        &networks::with_states(networks::complete(8, &[0]), 2, 4),
    );
    compare_lists(
        "ladder of 12, 3 must, 2 barred",
        &networks::with_states(networks::ladder(12, &[0]), 3, 2),
    );
    println!();
    println!("Page: a page of one tree, nanoseconds a call");
    println!("{:36} {:>12} {:>12}", "", "from the first", "behind it");
    short_page(
        "complete graph of 8 nodes, 28 rows",
        &networks::complete(8, &[0]),
    );
    short_page("streets, 20 nodes and 28 rows", &networks::streets(20, 28));
    short_page("line of 32 nodes by 8 rows each", &networks::line(32, 8));
    println!();
    println!("Page: the first page, milliseconds a call (plain Rust does not look ahead and would not end)");
    println!(
        "{:36} {:>9} {:>12} {:>12}",
        "", "trees", "half of 50", "slowest"
    );
    first_page("star of 32 nodes, plant at the rim", &networks::star(32));
    first_page("line of 32 nodes by 8 rows each", &networks::line(32, 8));
    first_page("grid of 5 by 6 nodes", &networks::grid(5, 6, &[0]));
    first_page(
        "grid of 5 by 6, 10 must, 5 barred",
        &networks::with_states(networks::grid(5, 6, &[0]), 10, 5),
    );
    first_page(
        "line of 32 by 8, one of 8 barred",
        &networks::line_with_barred(32, 8),
    );
    first_page("must path of 31 rows", &networks::must_path(32));
    println!();
    println!("Front: tables of {FRONT_ROWS} rows, nanoseconds a tree");
    println!(
        "{:36} {:>9} {:>12} {:>12} {:>8}",
        "", "trees", "library", "plain Rust", "ratio"
    );
    compare_fronts(
        "complete graph of 7 nodes, two criteria",
        &networks::complete(7, &[0, 1]),
    );
    compare_fronts(
        "random, 10 nodes and 25 rows, added and closing",
        &networks::random(10, 25, &[0, 2]),
    );
    compare_fronts(
        "grid of 4 by 4 nodes, three criteria",
        &networks::grid(4, 4, &[0, 1, 2]),
    );
    compare_fronts(
        "complete, 8 nodes, 2 must, 4 barred",
        &networks::with_states(networks::complete(8, &[0, 1]), 2, 4),
    );
}
