//! A newer survey over an older, as linked from the proved library, held to document 02, #106: worked files first, then every two
//! ends and frames, faults together, and seeded surveys, sound and damaged, all against independent code.

use planner_tests::calls::{Calls, Way};
use planner_tests::damage::{damaged, faults, Sizes};
use planner_tests::ffi;
use planner_tests::file::{Network, Row, BARRED, MOST_ROWS, MUST, NETWORK_A};
use planner_tests::reading;
use planner_tests::rng::Rng;
use planner_tests::seen::Seen;
use planner_tests::surveys::{self, Surveys};

const SURVEY: Way<2> = Way {
    call: |[older, newer], buffer, answer| ffi::survey(older, newer, buffer, answer),
    outcome: surveys::survey,
};

#[test]
fn two_files_and_what_comes_of_them() {
    let older = [
        1, 0, 0, 0, 66, // version, length
        4, 0, 5, 2, // n, m, k
        0, 2, // kinds
        1, 2, 0, 0, 0, 0, 0, 4, 0, 0, 0, 7, // goes
        4, 1, 0x12, 0x34, 0, 0, 0, 6, 0, 0x0f, 0x42, 0x40, // stands
        3, 2, 0, 7, 0, 0, 0, 5, 0, 0, 0, 5, // stands
        2, 1, 0, 0, 0, 0, 0, 3, 0, 0, 0, 6, // goes
        3, 4, 0, 0, 0, 0, 0, 2, 0, 0, 0, 8, // goes
    ];
    let newer = [
        2, 0, 0, 0, 45, // version, length
        4, 0, 3, 2, // n, m, k
        0, 2, // kinds
        2, 1, 0xff, 0xff, 2, 0, 1, 2, 3, 0, 0, 0, 0, // barred
        4, 3, 0, 9, 1, 0, 0, 0, 1, 0, 0, 1, 0, // must
        1, 2, 0, 0, 0, 0, 0, 0, 9, 0, 0, 0, 9, // open
    ];
    let whole = [
        2, 0, 0, 0, 71, // version, length
        4, 0, 5, 2, // n, m, k
        0, 2, // kinds
        4, 1, 0x12, 0x34, 0, 0, 0, 0, 6, 0, 0x0f, 0x42, 0x40, //
        3, 2, 0, 7, 0, 0, 0, 0, 5, 0, 0, 0, 5, //
        2, 1, 0xff, 0xff, 2, 0, 1, 2, 3, 0, 0, 0, 0, //
        4, 3, 0, 9, 1, 0, 0, 0, 1, 0, 0, 1, 0, //
        1, 2, 0, 0, 0, 0, 0, 0, 9, 0, 0, 0, 9, //
    ];
    SURVEY.expect([&older, &newer], Ok(&whole));
    SURVEY.expect([&older, &NETWORK_A], Err(18));
    SURVEY.expect([&older, &newer[..10]], Err(2));
    SURVEY.expect([&[], &newer[..10]], Err(1));
}

/// A survey over itself, over one without rows, and one without rows over it: each has the survey's rows, in version 2.
#[test]
fn over_itself_and_over_none() {
    let rng = &mut Rng::new(106);
    let mut calls = Calls::default();
    for _ in 0..2_000 {
        let [version, other] = rng.pick(&[[1, 1], [1, 2], [2, 1], [2, 2]]);
        let network = Sizes::random(version, rng).network(rng);
        let file = network.encode();
        let none = Network {
            version: other,
            rows: Vec::new(),
            ..network.clone()
        };
        let none = none.encode();
        let whole = network.with_states(&[]).encode();
        for files in [[&file, &file], [&none, &file], [&file, &none]] {
            let came = calls.hold(&SURVEY, files.map(|file| &file[..]), rng);
            assert_eq!(came.as_ref(), Ok(&whole));
        }
    }
    calls.enough(&[0, 11, 255], 1_000);
}

/// One row of the older and one of the newer, with every two ends of each: either way round they join the same nodes.
#[test]
fn every_two_ends() {
    let rng = &mut Rng::new(107);
    let ends: Vec<[u8; 2]> = (1..=9)
        .flat_map(|a| (1..=9).map(move |b| [a, b]))
        .filter(|[a, b]| a != b)
        .collect();
    let with = |ends, cost| Network::new(9, vec![0], vec![Row::new(ends, 0, vec![cost])]);
    for &one in &ends {
        for &two in &ends {
            let same = one == two || one == [two[1], two[0]];
            let files = [with(one, 1).encode(), with(two, 2).encode()];
            let came = SURVEY.hold([&files[0], &files[1]], 28, 1, rng).unwrap();
            assert_eq!(came.len(), if same { 19 } else { 28 }, "{one:?} {two:?}");
        }
    }
}

/// Every two sequences of kinds, over the same nodes and over others: 18 unless all is the same.
#[test]
fn every_two_frames() {
    let rng = &mut Rng::new(108);
    let mut frames = Vec::new();
    for k in 1..=4 {
        for number in 0..3usize.pow(k) {
            let kind = |place| (number / 3usize.pow(place) % 3) as u8;
            frames.push((0..k).map(kind).collect::<Vec<u8>>());
        }
    }
    for kinds in frames
        .iter()
        .flat_map(|one| frames.iter().map(move |two| [one, two]))
    {
        for nodes in [[2, 2], [2, 3], [32, 31]] {
            let [older, newer] = [0, 1].map(|i| {
                let row = Row::new([1, 2], 0, vec![0; kinds[i].len()]);
                Network::new(nodes[i], kinds[i].clone(), vec![row]).encode()
            });
            let same = kinds[0] == kinds[1] && nodes[0] == nodes[1];
            let came = SURVEY.hold([&older, &newer], 34, 1, rng);
            assert_eq!(came.err(), (!same).then_some(18), "{kinds:?} {nodes:?}");
        }
    }
}

/// 19 by the rows that stand and the new ones; those that go do not count.
#[test]
fn rows_at_their_limits() {
    let rng = &mut Rng::new(109);
    for (counts, fits) in [
        ([256, 0, 0], true),
        ([0, 0, 256], true),
        ([0, 256, 256], true),
        ([0, 1, 256], true),
        ([255, 1, 1], true),
        ([1, 255, 255], true),
        ([128, 128, 128], true),
        ([256, 0, 1], false),
        ([1, 0, 256], false),
        ([1, 255, 256], false),
        ([128, 128, 129], false),
        ([256, 0, 256], false),
    ] {
        for k in 1..=4 {
            let surveys = Surveys::new(32, k, counts, rng);
            let (older, newer) = (surveys.older.encode(), surveys.newer.encode());
            let whole = surveys.whole().encode();
            SURVEY.expect([&older, &newer], if fits { Ok(&whole) } else { Err(19) });
        }
    }
    let longest = Surveys::new(32, 4, [100, 0, 156], rng).whole().encode();
    assert_eq!(longest.len(), 5_389);
}

/// The file of a network with a fault that this check refuses; without one where there is no check.
fn with_fault(network: Network, check: Option<u32>, rng: &mut Rng) -> Vec<u8> {
    // only version 2 has states
    let network = match check {
        Some(14) => network.with_states(&[]),
        _ => network,
    };
    let faults = faults(network.version);
    let mut file = network.encode();
    while reading::open(&file).err() != check {
        let fault = rng.pick(&faults);
        if fault.check == check {
            (fault.damage)(&mut file, Sizes::of(&network), rng);
        }
    }
    file
}

/// What fails several checks at once is refused by the first: those of the older file, those of the newer, 18, 19, 11.
#[test]
fn the_first_check_decides() {
    const OF_A_FILE: [u32; 8] = [1, 2, 3, 4, 5, 6, 7, 14];
    const TIMES: usize = 10;
    let rng = &mut Rng::new(110);
    let checks: Vec<Option<u32>> = [None].into_iter().chain(OF_A_FILE.map(Some)).collect();
    let mut calls = 0;
    for (older, newer) in checks
        .iter()
        .flat_map(|&one| checks.iter().map(move |&two| (one, two)))
    {
        for rest in (0..8).flat_map(|rest| [rest; TIMES]) {
            let [framed, few, room] = [1, 2, 4].map(|bit| rest & bit == 0);
            let (n, k) = (rng.between(3, 32), rng.between(1, 4));
            let counts = match few {
                true => [rng.between(1, 9), rng.between(0, 9), rng.between(1, 9)],
                false => [rng.between(1, 200), rng.between(0, 56), 256],
            };
            let mut surveys = Surveys::new(n, k, counts, rng);
            let needed = surveys.whole().encode().len();
            if !framed {
                surveys.part_frames(rng);
            }
            let places = if room {
                needed
            } else {
                rng.between(0, needed - 1)
            };
            let files = [
                with_fault(surveys.older, older, rng),
                with_fault(surveys.newer, newer, rng),
            ];
            let came = SURVEY.hold([&files[0], &files[1]], places, 1, rng);
            let first = older
                .or(newer)
                .or((!framed).then_some(18))
                .or((!few).then_some(19))
                .or((!room).then_some(11));
            assert_eq!(came.err(), first, "{older:?} {newer:?} {rest}");
            calls += 1;
        }
    }
    println!("{calls} calls");
}

/// How many seeded surveys there are, and how many at the least must have each form and come to each code.
const SURVEYS: usize = 30_000;
const ENOUGH: usize = 300;

/// Whether two of these rows join the same nodes.
fn parallel<'a>(rows: impl Iterator<Item = &'a Row>) -> bool {
    let mut pairs: Vec<[u8; 2]> = rows.map(Row::pair).collect();
    pairs.sort();
    pairs.windows(2).any(|two| two[0] == two[1])
}

/// Notes what sound surveys of one frame have.
fn note(surveys: &Surveys, seen: &mut Seen) {
    let Surveys {
        older,
        newer,
        stands,
    } = surveys;
    let part = |stands_too: bool| {
        let rows = older.rows.iter().zip(stands);
        rows.filter(move |(_, &stands)| stands == stands_too)
            .map(|(row, _)| row)
    };
    let gone_by = |row: &Row, test: &dyn Fn(&Row) -> bool| {
        let mut by = newer.rows.iter().filter(|new| new.pair() == row.pair());
        by.all(test)
    };
    let has = |network: &Network, state| network.rows.iter().any(|row| row.state == state);
    let [some_stand, some_go] = [true, false].map(|stands| part(stands).count() > 0);
    let rows = part(true).count() + newer.m();
    for (what, is) in [
        ("a survey of version 1 over 1", [1, 1]),
        ("a survey of version 2 over 1", [1, 2]),
        ("a survey of version 1 over 2", [2, 1]),
        ("a survey of version 2 over 2", [2, 2]),
    ] {
        seen.note(what, [older.version, newer.version] == is);
    }
    seen.note("no row in the older", older.m() == 0);
    seen.note("no row in the newer", newer.m() == 0);
    seen.note("no row in both", older.m() + newer.m() == 0);
    seen.note("all rows of the older go", some_go && !some_stand);
    seen.note("none goes", some_stand && !some_go && newer.m() > 0);
    seen.note("some go and some stand", some_go && some_stand);
    seen.note("rows beside each other stand", parallel(part(true)));
    seen.note("rows beside each other go", parallel(part(false)));
    seen.note("new rows beside each other", parallel(newer.rows.iter()));
    seen.note(
        "a row that goes by rows turned round",
        part(false).any(|row| gone_by(row, &|new| new.ends != row.ends)),
    );
    seen.note(
        "a row that goes by barred rows",
        part(false).any(|row| gone_by(row, &|new| new.state == BARRED)),
    );
    seen.note(
        "a must row that stands",
        part(true).any(|row| row.state == MUST),
    );
    seen.note(
        "a barred row that stands",
        part(true).any(|row| row.state == BARRED),
    );
    seen.note(
        "a barred row that goes",
        part(false).any(|row| row.state == BARRED),
    );
    seen.note("a new must row", has(newer, MUST));
    seen.note("n = 2", older.n == 2);
    seen.note("n = 32", older.n == 32);
    seen.note("k = 1", older.k() == 1);
    seen.note("k = 4", older.k() == 4);
    seen.note("256 rows", rows == MOST_ROWS);
    seen.note("257 rows", rows == MOST_ROWS + 1);
    seen.note("256 rows, and some go", rows == MOST_ROWS && some_go);
}

/// Notes in what the frames of sound surveys differ.
fn note_frames(Surveys { older, newer, .. }: &Surveys, seen: &mut Seen) {
    let sorted = |network: &Network| {
        let mut kinds = network.kinds.clone();
        kinds.sort();
        kinds
    };
    let begins = |one: &Network, two: &Network| two.kinds.starts_with(&one.kinds);
    let (n, kinds) = (older.n == newer.n, older.kinds == newer.kinds);
    seen.note("18 by n alone", kinds);
    seen.note(
        "18 by k, the older fewer",
        n && !kinds && begins(older, newer),
    );
    seen.note(
        "18 by k, the newer fewer",
        n && !kinds && begins(newer, older),
    );
    seen.note("18 by the kinds alone", n && older.k() == newer.k());
    seen.note(
        "18 by their sequence alone",
        n && !kinds && sorted(older) == sorted(newer),
    );
}

#[test]
fn seeded_surveys() {
    let rng = &mut Rng::new(20_260_106);
    let mut calls = Calls::default();
    let mut seen = Seen::default();
    for _ in 0..SURVEYS {
        let mut surveys = Surveys::random(rng);
        let whole = surveys.whole();
        if rng.once_in(6) {
            surveys.part_frames(rng);
        }
        let damages = rng.pick(&[[0, 0], [0, 0], [0, 0], [0, 0], [1, 0], [0, 1], [1, 1]]);
        let [older, newer] = [(&surveys.older, damages[0]), (&surveys.newer, damages[1])].map(
            |(network, damage)| match damage {
                0 => network.encode(),
                _ => damaged(network, rng),
            },
        );
        let came = calls.hold(&SURVEY, [&older, &newer], rng);
        let refused = [&older, &newer].map(|file| reading::open(file).is_err());
        seen.note("the older refused", refused == [true, false]);
        seen.note("the newer refused", refused == [false, true]);
        seen.note("both refused", refused == [true, true]);
        if damages != [0, 0] {
            continue;
        }
        if !surveys.of_one_frame() {
            note_frames(&surveys, &mut seen);
            assert_eq!(came, Err(18));
            continue;
        }
        note(&surveys, &mut seen);
        if whole.m() > MOST_ROWS {
            assert_eq!(came, Err(19));
            continue;
        }
        let file = came.unwrap();
        let mut answer = [77; 3];
        assert_eq!(ffi::open(&file, &mut answer), 0);
        assert_eq!(answer, [whole.n as u32, whole.m() as u32, whole.k() as u32]);
        assert_eq!(reading::network(&file), Ok(whole));
        // the same survey once more leaves it as it is
        assert_eq!(calls.hold(&SURVEY, [&file, &newer], rng), Ok(file.clone()));
    }
    println!("{SURVEYS} surveys");
    seen.enough(ENOUGH);
    calls.enough(&[0, 1, 2, 3, 4, 5, 6, 7, 11, 14, 18, 19, 255], ENOUGH);
}
