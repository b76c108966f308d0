//! DIMACS edge files, as linked from the proved library and as the program `dimacs` converts them, held to document 02, #104: worked
//! texts first, every change of one byte, then seeded texts, sound and damaged, and round trips, all against independent code.

use std::fs::{self, File};
use std::process::Stdio;

use planner_tests::calls::{Calls, Way};
use planner_tests::damage::{damaged, Sizes};
use planner_tests::dimacs;
use planner_tests::dimacs_damage::{comment, sound, sound_of, Fault, CAP, FAULTS};
use planner_tests::draw;
use planner_tests::ffi;
use planner_tests::file::{Network, Row, BARRED, MUST, NETWORK_A, OPEN};
use planner_tests::program::{self, Written};
use planner_tests::reading;
use planner_tests::rng::Rng;
use planner_tests::seen::Seen;
use planner_tests::{shapes, trees};

const READ: Way<1> = Way {
    call: |[text], buffer, answer| ffi::dimacs_read(text, buffer, answer),
    outcome: |[text], places| dimacs::read(text, places),
};

const WRITE: Way<1> = Way {
    call: |[file], buffer, answer| ffi::dimacs_write(file, buffer, answer),
    outcome: |[file], places| dimacs::write(file, places),
};

/// Holds reading to the number that refuses a text; 0 where it is read.
fn expect_number(text: &[u8], number: u32) {
    match number {
        0 => {
            let file = dimacs::read(text, usize::MAX);
            READ.expect([text], Ok(&file.expect("the independent code refuses it")));
        }
        _ => READ.expect([text], Err(number)),
    }
}

/// A text of these two numbers and ends.
fn text_of(n: &str, m: &str, edges: &[[&str; 2]]) -> Vec<u8> {
    let mut text = format!("p edge {n} {m}\n");
    for [u, v] in edges {
        text += &format!("e {u} {v}\n");
    }
    text.into_bytes()
}

#[test]
fn a_text_and_its_file() {
    let text = b"c by hand\np edge 3 2\nc\ne 1 2\nc \ne 3 1\n";
    let file = [
        1, 0, 0, 0, 21, // version, length
        3, 0, 2, 1, // n, m, k
        0, // kind: added
        1, 2, 0, 0, 0, 0, 0, 1, // row 0
        3, 1, 0, 0, 0, 0, 0, 1, // row 1
    ];
    READ.expect([text], Ok(&file));
    WRITE.expect([&file], Ok(b"p edge 3 2\ne 1 2\ne 3 1\n"));

    let file = [1, 0, 0, 0, 5, 32, 0, 0, 1, 0];
    READ.expect([b"p edge 32 0\n"], Ok(&file));
    WRITE.expect([&file], Ok(b"p edge 32 0\n"));
}

#[test]
fn network_a_of_document_01() {
    let text = b"p edge 3 4\ne 1 2\ne 1 2\ne 1 3\ne 2 3\n";
    WRITE.expect([&NETWORK_A], Ok(text));
    let states = [BARRED, MUST, OPEN, BARRED];
    let network = reading::network(&NETWORK_A).unwrap().with_states(&states);
    WRITE.expect([&network.encode()], Ok(text));
}

/// Lines as the document's words go, each put before, between and behind the others of a sound text.
#[test]
fn lines_of_every_form() {
    let lines: [(&[u8], u32); 58] = [
        (b"c", 0),
        (b"c ", 0),
        (b"c text", 0),
        (b"c  ", 0),
        (b"c \t\r\x00\xff", 0),
        (b"c text\r", 0),
        (b"c p edge 3 2", 0),
        (b"c e 0 0", 0),
        (b"cx", 16),
        (b"cc", 16),
        (b"c\t", 16),
        (b"c\ttext", 16),
        (b"c\r", 16),
        (b" c", 16),
        (b"C", 16),
        (b"", 16),
        (b" ", 16),
        (b"\r", 16),
        (b"\t", 16),
        (b"\0", 16),
        (b"x", 16),
        (b"e", 16),
        (b"e ", 16),
        (b"e  ", 16),
        (b"e 1", 16),
        (b"e 1 ", 16),
        (b"e  1 2", 16),
        (b"e 1  2", 16),
        (b"e 1 2 ", 16),
        (b" e 1 2", 16),
        (b"e 1 2 3", 16),
        (b"e 1\t2", 16),
        (b"e\t1 2", 16),
        (b"e 1 2\r", 16),
        (b"e 01 2", 16),
        (b"e 1 02", 16),
        (b"e 00 2", 16),
        (b"e 1 00", 16),
        (b"e +1 2", 16),
        (b"e 1 -2", 16),
        (b"e -0 2", 16),
        (b"e 1 2.0", 16),
        (b"e 1 x", 16),
        (b"e 1 /", 16),
        (b"e 1 :", 16),
        (b"E 1 2", 16),
        (b"edge 1 2", 16),
        (b"ee 1 2", 16),
        (b"a 1 2", 16),
        (b"p edge 3 2", 16),
        (b"p edge 3 3", 16),
        (b"p", 16),
        (b"p edge", 16),
        (b"p edge 3", 16),
        (b"p col 3 2", 16),
        (b"n 1 2", 16),
        // one edge line more than M, and an end of 0 beside it
        (b"e 1 2", 17),
        (b"e 0 2", 17),
    ];
    let others: [&[u8]; 3] = [b"p edge 3 2", b"e 1 2", b"e 2 3"];
    for (line, number) in lines {
        for at in 0..=others.len() {
            let mut all = others.to_vec();
            all.insert(at, line);
            let text = [all.join(&b'\n'), b"\n".to_vec()].concat();
            // an edge line before the `p` line
            let number = if at == 0 && number == 17 { 16 } else { number };
            expect_number(&text, number);
        }
    }
}

/// The `p` line as the document's words go.
#[test]
fn p_lines_of_every_form() {
    let lines: [(&[u8], u32); 30] = [
        (b"p edge 3 0", 0),
        (b"p edge 3 1", 17),
        (b"p edge 1 1", 17),
        (b"p edge 1 0", 3),
        (b"p edge 0 0", 3),
        (b"p edge 33 0", 3),
        (b"p edge 33 257", 17),
        (b"p col 3 0", 16),
        (b"p Edge 3 0", 16),
        (b"p EDGE 3 0", 16),
        (b"p edges 3 0", 16),
        (b"p edg 3 0", 16),
        (b"p  3 0", 16),
        (b"p 3 0", 16),
        (b"P edge 3 0", 16),
        (b"pp edge 3 0", 16),
        (b"e edge 3 0", 16),
        (b"p edge 03 0", 16),
        (b"p edge 3 00", 16),
        (b"p edge +3 0", 16),
        (b"p edge 3 -0", 16),
        (b"p edge 3", 16),
        (b"p edge 3 ", 16),
        (b"p edge  3 0", 16),
        (b"p edge 3  0", 16),
        (b"p edge 3 0 ", 16),
        (b"p edge 3 0 0", 16),
        (b"p\tedge 3 0", 16),
        (b"p edge\t3 0", 16),
        (b"p edge 3 0\r", 16),
    ];
    for (line, number) in lines {
        expect_number(&[line, b"\n"].concat(), number);
        expect_number(&[line, b"\nc\n"].concat(), number);
        // without the last line feed
        expect_number(line, 16);
        expect_number(&[line, b"\nc"].concat(), 16);
    }
    for text in [&b""[..], b"\n", b"c\n", b"c text\nc\n", b"\n\n", b"p", b" "] {
        expect_number(text, 16);
    }
}

/// Numbers at which something may wrap or be cut.
fn far_numbers() -> Vec<String> {
    let mut numbers: Vec<String> = Vec::new();
    for bits in [8, 16, 31, 32, 53, 63, 64, 65, 96] {
        let power = 1u128 << bits;
        numbers.extend((power - 3..power + 35).map(|number| number.to_string()));
    }
    numbers.extend((CAP - 12..CAP + 12).map(|number| number.to_string()));
    // one digit more than the cap, and a tenth of it
    for tenth in CAP / 10 - 3..CAP / 10 + 3 {
        numbers.push(tenth.to_string());
        numbers.extend((0..10).map(|digit| format!("{tenth}{digit}")));
    }
    // 2 to the power 64 times 2 to the power 64, and 2 more
    numbers.push("340282366920938463463374607431768211456".to_string());
    numbers.push("340282366920938463463374607431768211458".to_string());
    numbers.extend((19..60).map(|zeros| format!("1{}", "0".repeat(zeros))));
    numbers.push("9".repeat(5_000));
    numbers.retain(|number| number.len() > 3 || number.parse::<usize>().unwrap() > 256);
    numbers
}

/// 3 by N and by M, with as many edge lines as M says.
#[test]
fn sizes_at_their_limits() {
    let rng = &mut Rng::new(104);
    for n in [0, 1, 2, 3, 31, 32, 33, 34, 255, 256, 257, 258, 288] {
        for m in [0, 1, 2, 255, 256, 257, 258, 300, 512, 513] {
            let sound = (2..=32).contains(&n) && m <= 256;
            let ends = if n > 1 { ["1", "2"] } else { ["1", "1"] };
            let text = text_of(&n.to_string(), &m.to_string(), &vec![ends; m]);
            expect_number(&text, if sound { 0 } else { 3 });
            // one edge line fewer, and one more
            if m > 0 {
                expect_number(
                    &text_of(&n.to_string(), &m.to_string(), &vec![ends; m - 1]),
                    17,
                );
            }
            expect_number(
                &text_of(&n.to_string(), &m.to_string(), &vec![ends; m + 1]),
                17,
            );
        }
    }
    for m in [65_536, 65_537, 100_000] {
        let text = text_of("2", &m.to_string(), &vec![["1", "2"]; m]);
        assert_eq!(READ.hold([&text], 10 + 8 * m, 1, rng), Err(3));
    }
    for n in 2..=32 {
        for m in 0..=256 {
            let text = sound_of(n, m, rng);
            let needed = 10 + 8 * m;
            assert_eq!(READ.hold([&text], needed, 1, rng).unwrap().len(), needed);
            assert_eq!(READ.hold([&text], needed - 1, 1, rng), Err(11));
        }
    }
}

#[test]
fn numbers_keep_their_value() {
    let numbers = far_numbers();
    for number in &numbers {
        expect_number(&text_of(number, "0", &[]), 3);
        expect_number(&text_of(number, "1", &[["1", "2"]]), 3);
        expect_number(&text_of("2", number, &[["1", "2"]]), 17);
        expect_number(&text_of(number, number, &[["1", "2"]]), 17);
        for edge in [
            ["1", number],
            [number, "1"],
            [number, number],
            ["0", number],
            [number, "0"],
        ] {
            expect_number(&text_of("32", "1", &[edge]), 6);
            expect_number(&text_of("32", "2", &[["1", "2"], edge]), 6);
            expect_number(&text_of(number, "1", &[edge]), 3);
        }
    }
    println!("{} numbers from 257 to 10^5000 - 1", numbers.len());
}

#[test]
fn ends_at_their_limits() {
    for n in 2..=32 {
        for u in 0..=n + 1 {
            for v in [0, 1, 2, n - 1, n, n + 1, 256, 257, 258, n + 256] {
                let node = |end| (1..=n).contains(&end);
                let sound = node(u) && node(v) && u != v;
                let [n, u, v] = [n, u, v].map(|number| number.to_string());
                let number = if sound { 0 } else { 6 };
                for edge in [[&u[..], &v[..]], [&v, &u]] {
                    let text = text_of(&n, "2", &[["1", "2"], edge]);
                    assert_eq!(dimacs::read(&text, usize::MAX).err().unwrap_or(0), number);
                    let rng = &mut Rng::new(text.len() as u64);
                    let came = READ.hold([&text], 26, 1, rng);
                    assert_eq!(came.err().unwrap_or(0), number);
                }
            }
        }
    }
}

/// Comments are no part of what is read, however many and long they are.
#[test]
fn comments_anywhere() {
    let rng = &mut Rng::new(105);
    let plain = sound_of(32, 256, rng);
    let file = dimacs::read(&plain, usize::MAX).unwrap();
    let mut text = Vec::new();
    for line in plain.split_inclusive(|&byte| byte == b'\n') {
        for _ in 0..100 {
            text.extend(comment(rng));
            text.push(b'\n');
        }
        text.extend(line);
    }
    text.extend(b"c ");
    text.resize(text.len() + 100_000, b'x');
    text.push(b'\n');
    println!("{} bytes", text.len());
    READ.expect([&text], Ok(&file));
    READ.expect([&text[..text.len() - 1]], Err(16));
}

/// Every text that one byte changed, put in or lost makes of a sound one.
#[test]
fn every_change_of_one_byte() {
    let rng = &mut Rng::new(106);
    let sound = b"c a\np edge 12 3\ne 1 2\nc\ne 12 10\nc \ne 3 1\n";
    let mut numbers = [0; 18];
    let mut hold = |text: &[u8]| {
        let came = READ.hold([text], 34, 1, rng);
        numbers[came.err().unwrap_or(0) as usize] += 1;
    };
    for at in 0..=sound.len() {
        let (before, behind) = sound.split_at(at);
        for byte in 0..=255 {
            hold(&[before, &[byte], behind].concat());
            if !behind.is_empty() {
                hold(&[before, &[byte], &behind[1..]].concat());
            }
        }
        if !behind.is_empty() {
            hold(&[before, &behind[1..]].concat());
            hold(before);
        }
    }
    println!(
        "{} texts, by number: {numbers:?}",
        numbers.iter().sum::<usize>()
    );
    assert!([0, 3, 6, 16, 17].iter().all(|&number| numbers[number] > 0));
}

/// Every text that a sound `p` line, or its words alone, and up to six bytes of these make.
#[test]
fn every_short_rest() {
    const BYTES: &[u8; 8] = b"e 120\nc\r";
    let rng = &mut Rng::new(107);
    for (begun, there) in [
        ("p edge 2 1\n", [0, 6, 16, 17]),
        ("p edge ", [0, 3, 16, 17]),
    ] {
        let mut numbers = [0; 18];
        for length in 0..=6 {
            for rest in 0..BYTES.len().pow(length) {
                let mut text = begun.as_bytes().to_vec();
                text.extend((0..length).map(|place| BYTES[rest >> (3 * place) & 7]));
                let came = READ.hold([&text], 18, 1, rng);
                numbers[came.err().unwrap_or(0) as usize] += 1;
            }
        }
        let texts: usize = numbers.iter().sum();
        println!("{texts} texts from {begun:?} on, by number: {numbers:?}");
        assert!(there.iter().all(|&number: &usize| numbers[number] > 0));
    }
}

/// A text with the faults of several checks at once is refused by the first of them, whichever they are.
#[test]
fn the_first_check_decides() {
    const ORDER: [u32; 5] = [16, 17, 3, 6, 11];
    const SETS: usize = 1 << ORDER.len();
    const TIMES: usize = 300;
    let rng = &mut Rng::new(108);
    let mut together = [[0; 5]; 5];
    for chosen in (0..SETS).flat_map(|chosen| [chosen; TIMES]) {
        let has_place = |place: usize| chosen >> place & 1 == 1;
        let has = |check: u32| has_place(ORDER.iter().position(|&other| other == check).unwrap());

        // 3 by N, or by M
        let many = has(3) && rng.once_in(2);
        let m = if many {
            rng.pick(&[258, 300, 513])
        } else {
            rng.between(1, 30)
        };
        let n = rng.between(2, 32);
        let nodes = match has(3) && !many {
            true => rng
                .pick(&["0", "1", "33", "257", "258", "18446744073709551618"])
                .to_string(),
            false => n.to_string(),
        };
        let count = if has(17) {
            rng.pick(&[m - 1, m + 1])
        } else {
            m
        };
        let mut lines = vec![format!("p edge {nodes} {count}")];
        let rows = Network::random(rng, n, m, 1).rows;
        lines.extend(
            rows.iter()
                .map(|row| format!("e {} {}", row.ends[0], row.ends[1])),
        );
        if has(6) {
            let node = rng.between(1, n);
            let (zero, twice) = (format!("e 0 {node}"), format!("e {node} {node}"));
            let at = rng.between(1, m);
            lines[at] = if rng.once_in(2) { zero } else { twice };
        }
        let mut last_line_feed = "\n";
        if has(16) {
            let at = rng.between(0, m);
            match rng.between(0, 6) {
                0 => lines.insert(at, String::new()),
                1 => lines.insert(at, "cx".to_string()),
                2 => lines.insert(at, lines[0].clone()),
                3 => lines.swap(0, 1),
                4 => lines[at].push(rng.pick(&['\r', ' ', 'x'])),
                5 => lines[at] = lines[at].replacen(' ', "\t", 1),
                _ => last_line_feed = "",
            }
        }
        if rng.once_in(2) {
            lines.insert(rng.between(0, lines.len()), "c text".to_string());
        }
        let text = lines.join("\n") + last_line_feed;
        let needed = 10 + 8 * m;
        let places = if has(11) {
            rng.between(0, needed - 1)
        } else {
            needed
        };
        let first = ORDER.into_iter().find(|&check| has(check));
        let came = READ.hold([text.as_bytes()], places, 1, rng);
        assert_eq!(came.err(), first, "{text}");
        for b in 0..5 {
            (0..b)
                .filter(|&a| has_place(a) && has_place(b))
                .for_each(|a| together[a][b] += 1);
        }
    }
    for b in 0..5 {
        for a in 0..b {
            println!(
                "{:6} texts with {} and {}",
                together[a][b], ORDER[a], ORDER[b]
            );
            assert!(together[a][b] >= 1_000);
        }
    }
}

/// How many seeded texts there are, and how many at the least must run into each check and come of each fault and buffer.
const TEXTS: usize = 100_000;
const ENOUGH_OF_A_CHECK: usize = 3_000;
const ENOUGH_OF_A_FAULT: usize = 300;
const ENOUGH_OF_A_CALL: usize = 1_000;

#[test]
fn seeded_texts() {
    let rng = &mut Rng::new(20_260_104);
    let mut calls = Calls::default();
    let mut of_check = [0; 18];
    let mut of_fault = [0; FAULTS.len()];
    for _ in 0..TEXTS {
        let mut text = sound(rng);
        let mut had = Vec::new();
        for _ in 0..rng.pick(&[0, 1, 1, 1, 1, 1, 2, 2, 3, 4]) {
            let which = rng.between(0, FAULTS.len() - 1);
            if (FAULTS[which].damage)(&mut text, rng) {
                had.push(which);
            }
        }
        let number = calls.hold(&READ, [&text], rng).err().unwrap_or(0);
        match had[..] {
            [] => assert_eq!(number, 0, "{}", text.escape_ascii()),
            [alone] => {
                let Fault { name, check, .. } = FAULTS[alone];
                assert_eq!(
                    number,
                    check.unwrap_or(number),
                    "{name}: {}",
                    text.escape_ascii()
                );
                of_fault[alone] += 1;
            }
            _ => {}
        }
        of_check[number as usize] += 1;
    }
    println!("{TEXTS} texts, by the check that refused them (0: read): {of_check:?}");
    for (fault, count) in FAULTS.iter().zip(of_fault) {
        println!("{count:6} with one fault: {}", fault.name);
        assert!(count >= ENOUGH_OF_A_FAULT, "too few: {}", fault.name);
    }
    let checks = [0, 3, 6, 16, 17];
    assert!(checks
        .iter()
        .all(|&check| of_check[check] >= ENOUGH_OF_A_CHECK));
    assert_eq!(
        checks.iter().map(|&check| of_check[check]).sum::<usize>(),
        TEXTS
    );
    calls.enough(&[0, 3, 6, 11, 16, 17, 255], ENOUGH_OF_A_CALL);
}

/// How many networks are written and read back.
const NETWORKS: usize = 10_000;

/// A network of either version: of any size or at the limits, with rows beside each other, with states, with streets.
fn some_network(rng: &mut Rng) -> Network {
    let version = rng.pick(&[1, 2]);
    let (n, m) = draw::sizes(rng);
    match rng.between(0, 9) {
        0 => {
            let (n, m, k) = (rng.pick(&[2, 32]), rng.pick(&[0, 256]), rng.between(1, 4));
            Sizes { version, n, m, k }.network(rng)
        }
        1..=3 => Sizes::random(version, rng).network(rng),
        4 | 5 => draw::network(rng, n, m),
        6 | 7 => draw::network_with_states(rng, n, m),
        8 => draw::network_with_few_states(rng, n, m),
        _ => draw::network_with_streets(rng, n, m),
    }
}

/// Notes what a network has that its text does not carry, or has at a limit.
fn note(network: &Network, seen: &mut Seen) {
    let has = |state: u8| network.rows.iter().any(|row| row.state == state);
    let mut pairs: Vec<[u8; 2]> = network.rows.iter().map(Row::pair).collect();
    pairs.sort();
    seen.note("version 1", network.version == 1);
    seen.note("version 2", network.version == 2);
    seen.note("must rows", has(MUST));
    seen.note("barred rows", has(BARRED));
    seen.note(
        "a named street",
        network.rows.iter().any(|row| row.street > 0),
    );
    seen.note("several criteria", network.k() > 1);
    seen.note("a worst criterion", network.kinds.contains(&1));
    seen.note("a closing criterion", network.kinds.contains(&2));
    seen.note(
        "rows beside each other",
        pairs.windows(2).any(|two| two[0] == two[1]),
    );
    seen.note("m = 0", network.m() == 0);
    seen.note("m = 256", network.m() == 256);
    seen.note("n = 2", network.n == 2);
    seen.note("n = 32", network.n == 32);
    let tree = trees::reached(network).len() == network.n as usize && !trees::must_cycle(network);
    seen.note("with a tree", tree);
    seen.note("without a tree", !tree);
}

/// Puts comments between the lines of a text.
fn with_comments(text: &[u8], rng: &mut Rng) -> Vec<u8> {
    let mut all = Vec::new();
    for line in text.split_inclusive(|&byte| byte == b'\n') {
        if rng.once_in(4) {
            all.extend(comment(rng));
            all.push(b'\n');
        }
        all.extend(line);
    }
    all
}

/// Reading our own text gives the same nodes and ends, in sequence; nothing else of the network is left.
#[test]
fn round_trips() {
    let rng = &mut Rng::new(110);
    let mut seen = Seen::default();
    let (mut writes, mut reads) = (Calls::default(), Calls::default());
    for _ in 0..NETWORKS {
        let network = some_network(rng);
        note(&network, &mut seen);
        let text = writes.hold(&WRITE, [&network.encode()], rng).unwrap();
        let file = reads.hold(&READ, [&text], rng).unwrap();
        let rows = network
            .rows
            .iter()
            .map(|row| Row::new(row.ends, 0, vec![1]));
        let left = Network::new(network.n, vec![0], rows.collect());
        assert_eq!(reading::network(&file), Ok(left), "{}", text.escape_ascii());
        let mut answer = [77; 3];
        assert_eq!(ffi::open(&file, &mut answer), 0);
        assert_eq!(answer, [network.n as u32, network.m() as u32, 1]);

        assert_eq!(writes.hold(&WRITE, [&file], rng), Ok(text.clone()));
        let commented = with_comments(&text, rng);
        assert_eq!(reads.hold(&READ, [&commented], rng), Ok(file));
    }
    println!("{NETWORKS} networks");
    seen.enough(300);
    writes.enough(&[0, 11, 255], ENOUGH_OF_A_CALL);
    reads.enough(&[0, 11, 255], ENOUGH_OF_A_CALL);
}

/// What Open refuses is not written, whatever the buffer, and meets the same number.
#[test]
fn damaged_files() {
    let rng = &mut Rng::new(111);
    let mut calls = Calls::default();
    for _ in 0..NETWORKS {
        let network = some_network(rng);
        let file = damaged(&network, rng);
        let opened = ffi::open(&file, &mut [0; 3]);
        let written = calls.hold(&WRITE, [&file], rng);
        assert_eq!(opened, written.err().unwrap_or(0), "{file:02x?}");
    }
    calls.enough(&[0, 1, 2, 3, 4, 5, 6, 7, 11, 14, 255], 200);
}

/// The most bytes that the program reads.
const MOST_BYTES: usize = 65_536;

/// What the program writes of an input: a network file begins with 1 or 2.
fn converted(input: &[u8]) -> Written {
    let outcome = match input.first() {
        Some(1 | 2) => dimacs::write(input, usize::MAX),
        _ => dimacs::read(input, usize::MAX),
    };
    match outcome {
        _ if input.len() > MOST_BYTES => Written {
            out: Vec::new(),
            err: "dimacs: the input has more than 65,536 bytes\n".to_string(),
        },
        Ok(out) => Written {
            out,
            err: String::new(),
        },
        Err(number) => Written {
            out: Vec::new(),
            err: format!("refused {number}\n"),
        },
    }
}

/// Runs the program on an input and holds what it writes to the independent code.
fn convert(input: &[u8]) -> Written {
    let written = program::run("dimacs", input);
    assert_eq!(written, converted(input), "{}", input.escape_ascii());
    written
}

fn refusal(number: u32) -> Written {
    Written {
        out: Vec::new(),
        err: format!("refused {number}\n"),
    }
}

#[test]
fn the_program_converts_both_ways() {
    let text = b"p edge 3 4\ne 1 2\ne 1 2\ne 1 3\ne 2 3\n";
    assert_eq!(convert(&NETWORK_A).out, text);
    let file = convert(text).out;
    assert_eq!(file.len(), 42);
    assert_eq!(convert(&file).out, text);
    assert_eq!(convert(&with_comments(text, &mut Rng::new(4))).out, file);

    // a text and a file that come byte by byte, and in two pieces
    let pieces: Vec<&[u8]> = text.chunks(1).collect();
    assert_eq!(program::run_on_pieces("dimacs", &pieces).out, file);
    assert_eq!(
        program::run_on_pieces("dimacs", &[&file[..4], &file[4..]]).out,
        text
    );
}

#[test]
fn the_program_refuses() {
    for (text, number) in [
        (&b""[..], 16),
        (b"\n", 16),
        (b"p edge 3 1\ne 1 2", 16),
        (b"\x00p edge 3 0\n", 16),
        (b"\x03\0\0\0\x05\x02\0\0\x01\0", 16),
        (b"p edge 3 2\ne 1 2\n", 17),
        (b"p edge 33 1\ne 1 2\n", 3),
        (b"p edge 18446744073709551618 1\ne 1 2\n", 3),
        (b"p edge 3 1\ne 1 4\n", 6),
        (b"p edge 3 1\ne 1 257\n", 6),
        // network files
        (b"\x01", 2),
        (b"\x02", 2),
        (b"\x01\0\0\0\x05\x01\0\0\x01\0", 3),
        (b"\x01\0\0\0\x05\x02\0\x01\x01\0", 4),
        (b"\x02\0\0\0\x05\x02\0\0\x01\x03", 5),
    ] {
        assert_eq!(convert(text), refusal(number));
    }
}

/// An input is not cut: one of the most bytes is converted, one of more is refused in words.
#[test]
fn the_program_on_long_inputs() {
    let text = b"p edge 3 2\ne 1 2\ne 1 3\n";
    let padded = |length: usize| {
        let mut all = text.to_vec();
        while all.len() < length {
            let line = (length - all.len()).min(1_000);
            // no line of one byte is left
            let line = if length - all.len() - line == 1 {
                line - 2
            } else {
                line
            };
            all.extend(b"c ".iter().chain(&[b'x'; 1_000]).take(line - 1));
            all.push(b'\n');
        }
        assert_eq!(all.len(), length);
        all
    };
    let file = converted(text).out;
    for length in [MOST_BYTES - 1, MOST_BYTES] {
        assert_eq!(convert(&padded(length)).out, file);
    }
    for length in [MOST_BYTES + 1, MOST_BYTES + 2, 2 * MOST_BYTES, 1 << 20] {
        let written = convert(&padded(length));
        assert!(written.out.is_empty() && !written.err.contains("refused"));
    }
    // whatever stands there
    for first in [0, 1, 2, b'c'] {
        let mut input = vec![b'\n'; MOST_BYTES + 1];
        input[0] = first;
        convert(&input);
        input.truncate(MOST_BYTES);
        assert!(convert(&input).err.starts_with("refused "));
    }
    let most = padded(MOST_BYTES);
    let pieces: Vec<&[u8]> = most.chunks(4_097).collect();
    assert_eq!(program::run_on_pieces("dimacs", &pieces).out, file);
    let more = padded(MOST_BYTES + 1);
    let pieces = [&more[..MOST_BYTES], &more[MOST_BYTES..]];
    assert_eq!(program::run_on_pieces("dimacs", &pieces), converted(&more));
}

#[test]
fn the_program_on_seeded_inputs() {
    let rng = &mut Rng::new(112);
    let (mut files, mut texts, mut refused) = (0, 0, 0);
    for _ in 0..150 {
        let network = some_network(rng);
        let mut text = sound(rng);
        let fault = rng.between(0, 2 * FAULTS.len() - 1);
        if let Some(fault) = FAULTS.get(fault) {
            (fault.damage)(&mut text, rng);
        }
        for input in [network.encode(), damaged(&network, rng), text] {
            match convert(&input) {
                Written { err, .. } if !err.is_empty() => refused += 1,
                _ if input[0] < 3 => texts += 1,
                _ => files += 1,
            }
        }
    }
    println!("{texts} texts and {files} files written, {refused} inputs refused");
    assert!([files, texts, refused].iter().all(|&count| count >= 50));
}

/// The sample is the Petersen graph, and goes through a pipe into treelist.
#[test]
fn the_sample_into_treelist() {
    let path = concat!(env!("CARGO_MANIFEST_DIR"), "/../samples/petersen.col");
    let text = fs::read(path).unwrap();
    let heads: Vec<&[u8]> = text.split(|&byte| byte == b'\n').take(3).collect();
    assert!(heads[0].starts_with(b"c ") && heads[1].starts_with(b"c "));
    assert_eq!(heads[2], b"p edge 10 15");
    let file = convert(&text).out;
    let network = reading::network(&file).unwrap();
    let pairs = |network: &Network| {
        let mut pairs: Vec<[u8; 2]> = network.rows.iter().map(Row::pair).collect();
        pairs.sort();
        pairs
    };
    assert_eq!(
        (network.n, pairs(&network)),
        (10, pairs(&shapes::petersen()))
    );
    let mut trees = [0];
    assert_eq!(ffi::count(&file, &mut trees), 0);
    assert_eq!(trees, [2_000]);

    let mut dimacs = program::start("dimacs", Stdio::from(File::open(path).unwrap()));
    let between = Stdio::from(dimacs.stdout.take().unwrap());
    let treelist = program::end(program::start("treelist", between));
    assert_eq!(program::end(dimacs).err, "");
    assert_eq!(treelist.err, "");
    let printed = String::from_utf8(treelist.out).unwrap();
    let lines: Vec<&str> = printed.lines().collect();
    assert_eq!(lines[0], "network 10 15 1");
    let trees = lines.iter().filter(|line| line.starts_with("tree "));
    // nine rows of cost 1 each
    assert_eq!(
        trees.filter(|line| line.ends_with(" cost 9")).count(),
        2_000
    );
    assert_eq!(lines.last(), Some(&"end trees 2000 front 1 whole"));
}
