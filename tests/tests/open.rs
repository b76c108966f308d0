//! Open, as linked from the proved library, held to documents 01 and 02: directed files first, then 200,000 seeded ones
//! of each version against the independent reading.

use planner_tests::damage::{faults, Fault, Sizes};
use planner_tests::ffi::{self, SHORT_ANSWER};
use planner_tests::file::{mend_length, network_a, Network, MOST, NETWORK_A};
use planner_tests::lent::Lent;
use planner_tests::reading;
use planner_tests::rng::Rng;

/// Calls Open with so many places and holds the return value and every place to what is expected.
fn expect(file: &[u8], places: usize, code: u32, written: &[u32], rng: &mut Rng) {
    let mut answer = Lent::new(places, || rng.word() as u32);
    let returned = ffi::open(file, answer.part());
    let told = || {
        let head = &file[..file.len().min(64)];
        format!("{} bytes: {head:02x?}; {places} places", file.len())
    };
    assert_eq!(returned, code, "{}", told());
    answer.expect(written, told);
}

/// Holds Open to an outcome, with answers of every length that matters.
fn expect_outcome(file: &[u8], outcome: Result<(u32, u32, u32), u32>) {
    let mut rng = Rng::new(file.len() as u64);
    assert_eq!(reading::open(file), outcome, "the reading itself");
    for places in 0..3 {
        expect(file, places, SHORT_ANSWER, &[], &mut rng);
    }
    for places in 3..8 {
        match outcome {
            Ok((n, m, k)) => expect(file, places, 0, &[n, m, k], &mut rng),
            Err(number) => expect(file, places, number, &[], &mut rng),
        }
    }
}

fn sound(n: usize, m: usize, k: usize) -> Network {
    Network::random(&mut Rng::new(7), n, m, k)
}

#[test]
fn network_a_of_document_01() {
    assert_eq!(
        NETWORK_A[..11],
        [0x01, 0, 0, 0, 0x36, 0x03, 0, 0x04, 0x02, 0, 0x01]
    );
    assert_eq!(network_a().encode(), NETWORK_A);
    expect_outcome(&NETWORK_A, Ok((3, 4, 2)));
}

#[test]
fn sizes_at_their_limits() {
    for (n, outcome) in [
        (0, Err(3)),
        (1, Err(3)),
        (2, Ok((2, 4, 2))),
        (32, Ok((32, 4, 2))),
        (33, Err(3)),
    ] {
        expect_outcome(&sound(n, 4, 2).encode(), outcome);
    }
    for (m, outcome) in [
        (0, Ok((3, 0, 2))),
        (256, Ok((3, 256, 2))),
        (257, Err(3)),
        (512, Err(3)),
    ] {
        expect_outcome(&sound(3, m, 2).encode(), outcome);
    }
    for (k, outcome) in [
        (0, Err(3)),
        (1, Ok((3, 4, 1))),
        (4, Ok((3, 4, 4))),
        (5, Err(3)),
    ] {
        expect_outcome(&sound(3, 4, k).encode(), outcome);
    }
    expect_outcome(&sound(2, 0, 1).encode(), Ok((2, 0, 1)));
}

#[test]
fn the_longest_file() {
    let network = sound(32, 256, 4);
    let file = network.encode();
    assert_eq!(file.len(), 5_133);
    expect_outcome(&file, Ok((32, 256, 4)));
    let file = network.with_any_states(&mut Rng::new(7)).encode();
    assert_eq!(file.len(), 5_389);
    expect_outcome(&file, Ok((32, 256, 4)));
}

#[test]
fn states_at_their_limits() {
    for row in 0..4 {
        for state in 0..=255 {
            let mut network = network_a().with_states(&[]);
            network.rows[row].state = state;
            let outcome = if state <= 2 { Ok((3, 4, 2)) } else { Err(14) };
            expect_outcome(&network.encode(), outcome);
        }
    }
}

/// A file of one version whose first byte says the other is refused by 4, unless it has no rows.
#[test]
fn the_version_decides_the_rows_length() {
    let a = network_a();
    for (network, other) in [(a.clone(), 2), (a.with_states(&[]), 1)] {
        let mut file = network.encode();
        file[0] = other;
        expect_outcome(&file, Err(4));
        for version in [0, 3, 4, 255] {
            file[0] = version;
            expect_outcome(&file, Err(1));
        }
    }
    let mut file = sound(2, 0, 1).encode();
    file[0] = 2;
    expect_outcome(&file, Ok((2, 0, 1)));
}

#[test]
fn costs_at_their_limit() {
    for row in 0..4 {
        for criterion in 0..2 {
            let mut network = network_a();
            network.rows[row].costs[criterion] = MOST;
            expect_outcome(&network.encode(), Ok((3, 4, 2)));
            for above in [MOST + 1, 1 << 20, 1 << 24, 1 << 31, u32::MAX] {
                network.rows[row].costs[criterion] = above;
                expect_outcome(&network.encode(), Err(7));
            }
        }
    }
}

#[test]
fn ends_and_kinds_at_their_limits() {
    for row in 0..4 {
        for (ends, outcome) in [
            ([1, 3], Ok((3, 4, 2))),
            ([3, 1], Ok((3, 4, 2))),
            ([0, 1], Err(6)),
            ([1, 0], Err(6)),
            ([4, 1], Err(6)),
            ([1, 4], Err(6)),
            ([255, 1], Err(6)),
            ([1, 1], Err(6)),
            ([3, 3], Err(6)),
        ] {
            let mut network = network_a();
            network.rows[row].ends = ends;
            expect_outcome(&network.encode(), outcome);
        }
    }
    for criterion in 0..2 {
        for (kind, outcome) in [
            (0, Ok((3, 4, 2))),
            (1, Ok((3, 4, 2))),
            (2, Ok((3, 4, 2))),
            (3, Err(5)),
            (255, Err(5)),
        ] {
            let mut network = network_a();
            network.kinds[criterion] = kind;
            expect_outcome(&network.encode(), outcome);
        }
    }
}

#[test]
fn files_that_end_before_the_header_does() {
    expect_outcome(&[], Err(1));
    expect_outcome(&[0], Err(1));
    expect_outcome(&[1], Err(2));
    for length in 1..9 {
        expect_outcome(&NETWORK_A[..length], Err(2));
    }
    for length in 5..9 {
        let mut file = NETWORK_A[..length].to_vec();
        mend_length(&mut file);
        expect_outcome(&file, Err(2));
    }
    let mut header = NETWORK_A[..9].to_vec();
    mend_length(&mut header);
    expect_outcome(&header, Err(4));
}

#[test]
fn a_check_looks_at_the_whole_file_before_the_next() {
    let mut network = sound(5, 9, 3);
    network.rows[0].costs[0] = MOST + 1;
    expect_outcome(&network.encode(), Err(7));
    network.rows[8].ends = [2, 2];
    expect_outcome(&network.encode(), Err(6));
    network.kinds[2] = 3;
    expect_outcome(&network.encode(), Err(5));

    let mut network = sound(5, 9, 3).with_states(&[3]);
    expect_outcome(&network.encode(), Err(14));
    network.rows[8].costs[2] = MOST + 1;
    expect_outcome(&network.encode(), Err(7));
}

/// A file with the faults of several checks at once is refused by the first of them, whichever they are.
#[test]
fn the_first_check_decides() {
    const ORDER: [u32; 8] = [1, 2, 3, 4, 5, 6, 7, 14];
    for (version, checks) in [(1, 7), (2, 8)] {
        for chosen in 0..1 << checks {
            let has = |check: u32| {
                let place = ORDER.iter().position(|&other| other == check);
                chosen >> place.unwrap() & 1 == 1
            };
            let mut network = sound(4, 6, 2);
            network.version = version;
            if has(14) {
                network.rows[0].state = 3;
            }
            if has(7) {
                network.rows[0].costs[1] = MOST + 1;
            }
            if has(6) {
                network.rows[3].ends = [0, 2];
            }
            if has(5) {
                network.kinds[1] = 3;
            }
            if has(3) {
                network.n = 33;
            }
            let mut file = network.encode();
            if has(4) {
                file.push(0);
                mend_length(&mut file);
            }
            if has(2) {
                file[4] += 1;
            }
            if has(1) {
                file[0] = 3;
            }
            match ORDER.into_iter().find(|&check| has(check)) {
                None => expect_outcome(&file, Ok((4, 6, 2))),
                Some(first) => expect_outcome(&file, Err(first)),
            }
        }
    }
}

/// How many seeded files of each version there are, and how many at the least must run into each check and come of each
/// fault.
const FILES: usize = 200_000;
const ENOUGH_OF_A_CHECK: usize = 5_000;
const ENOUGH_OF_A_FAULT: usize = 1_000;

/// Holds Open to the reading on one file: with a short answer and with one that is long enough, both with random content.
fn compare(file: &[u8], rng: &mut Rng) -> u32 {
    let short = rng.between(0, 2);
    expect(file, short, SHORT_ANSWER, &[], rng);
    let places = if rng.once_in(2) { 3 } else { rng.between(4, 9) };
    match reading::open(file) {
        Ok((n, m, k)) => {
            expect(file, places, 0, &[n, m, k], rng);
            0
        }
        Err(number) => {
            expect(file, places, number, &[], rng);
            number
        }
    }
}

/// Files of this version, the longest of so many bytes, which these checks may refuse.
fn seeded_files(version: u8, longest_file: usize, checks: &[usize]) {
    let mut rng = Rng::new(20_260_101);
    let faults = faults(version);
    let mut of_check = [0; 15];
    let mut of_fault = vec![0; faults.len()];
    let mut longest = 0;
    let mut files = 0;

    // One sound file of every size.
    for n in 2..=32 {
        for m in 0..=256 {
            for k in 1..=4 {
                let file = Sizes { version, n, m, k }.network(&mut rng).encode();
                assert_eq!(reading::open(&file), Ok((n as u32, m as u32, k as u32)));
                compare(&file, &mut rng);
                of_check[0] += 1;
                longest = longest.max(file.len());
                files += 1;
            }
        }
    }
    assert_eq!(longest, longest_file);

    // The rest with no fault, one, or several at once.
    while files < FILES {
        let sizes = Sizes::random(version, &mut rng);
        let mut file = sizes.network(&mut rng).encode();
        let mut had = Vec::new();
        for _ in 0..rng.pick(&[0, 1, 1, 1, 1, 1, 2, 2, 3, 4]) {
            let which = rng.between(0, faults.len() - 1);
            if (faults[which].damage)(&mut file, sizes, &mut rng) {
                had.push(which);
            }
        }
        let number = compare(&file, &mut rng);
        match had[..] {
            [] => assert_eq!(number, 0),
            [alone] => {
                let Fault { name, check, .. } = faults[alone];
                assert_eq!(number, check.unwrap_or(number), "{name}");
                of_fault[alone] += 1;
            }
            _ => {}
        }
        of_check[number as usize] += 1;
        files += 1;
    }

    println!("{files} files, by the check that refused them (0: accepted): {of_check:?}");
    for (fault, count) in faults.iter().zip(of_fault) {
        println!("{count:6} with one fault: {}", fault.name);
        assert!(count >= ENOUGH_OF_A_FAULT, "too few: {}", fault.name);
    }
    assert!(checks
        .iter()
        .all(|&check| of_check[check] >= ENOUGH_OF_A_CHECK));
    assert_eq!(
        checks.iter().map(|&check| of_check[check]).sum::<usize>(),
        FILES
    );
}

#[test]
fn seeded_files_of_version_1() {
    seeded_files(1, 5_133, &[0, 1, 2, 3, 4, 5, 6, 7]);
}

#[test]
fn seeded_files_of_version_2() {
    seeded_files(2, 5_389, &[0, 1, 2, 3, 4, 5, 6, 7, 14]);
}
