//! DIMACS edge files made from seeds, and what can be wrong with one (document 02, #104): faults by name, each with the check that it
//! runs into.

use crate::file::Network;
use crate::rng::Rng;

/// 2 to the power 64 less 7: the code under test holds numbers at it.
pub const CAP: u128 = (1 << 64) - 7;

/// A sound text of any size.
pub fn sound(rng: &mut Rng) -> Vec<u8> {
    let (n, m) = sizes(rng);
    sound_of(n, m, rng)
}

/// Mostly small ones, some of any size, some at the limits.
fn sizes(rng: &mut Rng) -> (usize, usize) {
    match rng.between(0, 19) {
        0 => (rng.pick(&[2, 3, 31, 32]), rng.pick(&[0, 1, 255, 256])),
        1 => (rng.between(2, 32), rng.between(0, 256)),
        _ => (rng.between(2, 32), rng.between(0, 9)),
    }
}

/// A text of so many nodes and edges, which may be out of range, with no comments, few or many.
pub fn sound_of(n: usize, m: usize, rng: &mut Rng) -> Vec<u8> {
    let mut lines = vec![format!("p edge {n} {m}")];
    for row in Network::random(rng, n, m, 1).rows {
        let [u, v] = row.ends;
        lines.push(format!("e {u} {v}"));
    }
    let mut text: Vec<u8> = lines
        .iter()
        .flat_map(|line| [line, "\n"].concat().into_bytes())
        .collect();
    for _ in 0..rng.pick(&[0, 0, 1, 2, 5]) {
        let line = comment(rng);
        insert(&mut text, &line, rng);
    }
    text
}

/// A comment of any form.
pub fn comment(rng: &mut Rng) -> Vec<u8> {
    let forms: [&[u8]; 14] = [
        b"c",
        b"c ",
        b"c text",
        b"c c",
        b"c  two spaces  parted ",
        b"c \t",
        b"c \r",
        b"c text\r",
        b"c \x00",
        b"c p edge 3 2",
        b"c e 1 2",
        b"c FILE: petersen.col",
        b"c \xc3\xa4",
        b"c +-18446744073709551618",
    ];
    if rng.once_in(3) {
        let most = rng.pick(&[8, 8, 40, 300]);
        let any = (0..rng.between(1, most)).map(|_| rng.byte());
        return b"c "
            .iter()
            .copied()
            .chain(any.filter(|&byte| byte != b'\n'))
            .collect();
    }
    rng.pick(&forms).to_vec()
}

pub struct Fault {
    pub name: &'static str,
    /// The check that refuses a sound text with this fault alone; 0 where none does; nothing where it differs.
    pub check: Option<u32>,
    /// Damages a text that was sound, or that an earlier fault damaged. False where it has no place for the fault.
    pub damage: fn(&mut Vec<u8>, &mut Rng) -> bool,
}

const fn fault(
    name: &'static str,
    check: u32,
    damage: fn(&mut Vec<u8>, &mut Rng) -> bool,
) -> Fault {
    Fault {
        name,
        check: Some(check),
        damage,
    }
}

const fn fault_of_any_check(
    name: &'static str,
    damage: fn(&mut Vec<u8>, &mut Rng) -> bool,
) -> Fault {
    Fault {
        name,
        check: None,
        damage,
    }
}

pub const FAULTS: [Fault; 62] = [
    // 16: lines and their feeds
    fault("an empty text", 16, |text, _| {
        text.clear();
        true
    }),
    fault("no last line feed", 16, |text, _| {
        text.pop_if(|last| *last == b'\n').is_some()
    }),
    fault("bytes behind the last line feed", 16, |text, rng| {
        let rests: [&[u8]; 8] = [b"c", b"c text", b"e 1 2", b" ", b"\r", b"\0", b"\x1a", b"p"];
        text.extend(rng.pick(&rests));
        true
    }),
    fault("an empty line", 16, |text, rng| insert(text, b"", rng)),
    fault("a line of spaces", 16, |text, rng| {
        let line = rng.pick(&[&b" "[..], b"  ", b"   "]);
        insert(text, line, rng)
    }),
    fault("a carriage return before a line feed", 16, |text, rng| {
        change_line(text, b"pe", rng, |line, _| {
            line.push(b'\r');
            true
        })
    }),
    fault("carriage returns before all line feeds", 16, |text, _| {
        change_lines(text, |lines| {
            let last = lines.len() - 1;
            lines[..last].iter_mut().for_each(|line| line.push(b'\r'));
            last > 0
        })
    }),
    fault("carriage returns for all line feeds", 16, |text, _| {
        text.iter_mut()
            .filter(|byte| **byte == b'\n')
            .for_each(|byte| *byte = b'\r');
        !text.is_empty()
    }),
    fault("a line parted in two", 16, |text, rng| {
        put_for_space(text, b"\n", rng)
    }),
    fault_of_any_check("a line feed lost", |text, rng| {
        let by = rng.pick(&[&b""[..], b" ", b"\r"]);
        some_place(text, b'\n', rng).is_some_and(|at| {
            text.splice(at..at + 1, by.iter().copied());
            true
        })
    }),
    // 16: spaces
    fault("a tab for a space", 16, |text, rng| {
        put_for_space(text, b"\t", rng)
    }),
    fault("another byte for a space", 16, |text, rng| {
        let byte = rng.pick(&[
            &b"\0"[..],
            b"\x0b",
            b"\x0c",
            b"\r",
            b"\xa0",
            b",",
            b"\x1f",
            b"!",
        ]);
        put_for_space(text, byte, rng)
    }),
    fault("a space doubled", 16, |text, rng| {
        put_for_space(text, b"  ", rng)
    }),
    fault("a space lost", 16, |text, rng| {
        put_for_space(text, b"", rng)
    }),
    fault("a space at a line's end", 16, |text, rng| {
        change_line(text, b"pe", rng, |line, _| {
            line.push(b' ');
            true
        })
    }),
    fault("a space at a line's head", 16, |text, rng| {
        change_line(text, b"pec", rng, |line, _| {
            line.insert(0, b' ');
            true
        })
    }),
    // 16: numbers
    fault("a leading zero", 16, |text, rng| {
        let zeros = rng.pick(&[&b"0"[..], b"0", b"00", b"00000000000000000000"]);
        change_number(text, rng, |number| {
            number.splice(..0, zeros.iter().copied()).for_each(drop)
        })
    }),
    fault("a sign", 16, |text, rng| {
        let sign = rng.pick(b"+-");
        change_number(text, rng, |number| number.insert(0, sign))
    }),
    fault("a number with another byte", 16, |text, rng| {
        let byte = rng.pick(b"/:.,exX_'\0\x7f\xb2\xff");
        let behind = rng.once_in(2);
        change_number(text, rng, |number| match behind {
            true => number.push(byte),
            false => number.insert(0, byte),
        })
    }),
    fault("no number", 16, |text, rng| {
        let other = rng.pick(&[
            &b""[..],
            b"x",
            b"-",
            b"/",
            b":",
            b"1.0",
            b"0x1",
            b"1e1",
            b"edge",
            b"\xd9\xa3",
        ]);
        change_number(text, rng, |number| *number = other.to_vec())
    }),
    // 16: words
    fault("another word than edge", 16, |text, rng| {
        let words: [&[u8]; 10] = [
            b"col", b"Edge", b"EDGE", b"edges", b"edg", b"dge", b"", b"edge\0", b"e", b"edgf",
        ];
        let word = rng.pick(&words);
        change_tokens(text, b"p", rng, |tokens, _| put(tokens, 1, word.to_vec()))
    }),
    fault("another letter at a line's head", 16, |text, rng| {
        let words: [&[u8]; 11] = [
            b"P", b"E", b"", b"pe", b"ee", b"pp", b"edge", b"a", b"n", b"C", b"cx",
        ];
        let word = rng.pick(&words);
        change_tokens(text, b"pe", rng, |tokens, _| put(tokens, 0, word.to_vec()))
    }),
    fault("p and e exchanged", 16, |text, rng| {
        change_line(text, b"pe", rng, |line, _| {
            line[0] ^= b'p' ^ b'e';
            true
        })
    }),
    fault("a token more", 16, |text, rng| {
        let token = rng.pick(&[&b"1"[..], b"0", b"edge", b"x", b"e"]);
        change_tokens(text, b"pe", rng, |tokens, rng| {
            let at = rng.between(1, tokens.len());
            tokens.insert(at, token.to_vec());
            true
        })
    }),
    fault("a token less", 16, |text, rng| {
        change_tokens(text, b"pe", rng, |tokens, rng| {
            let at = rng.between(0, tokens.len() - 1);
            tokens.remove(at);
            true
        })
    }),
    fault("what is no comment", 16, |text, rng| {
        let lines: [&[u8]; 16] = [
            b"cx",
            b"c\t",
            b"c\ttext",
            b"cc",
            b"C",
            b"C text",
            b"c\r",
            b" c",
            b"c\0",
            b"# text",
            b"% text",
            b"c\x0btext",
            b"c,",
            b"comment",
            b"\xef\xbb\xbfc",
            b"p",
        ];
        let line = rng.pick(&lines);
        insert(text, line, rng)
    }),
    fault("a line of another form", 16, |text, rng| {
        let lines: [&[u8]; 10] = [
            b"n 1 2",
            b"d 1 2",
            b"v 1 2",
            b"a 1 2 3",
            b"x",
            b"e",
            b"p edge",
            b"e 1",
            b"p edge 2",
            b"1 2",
        ];
        let line = rng.pick(&lines);
        insert(text, line, rng)
    }),
    // 16: the sequence of lines
    fault("a second p line, the same", 16, |text, rng| {
        some_line(text, b"p", rng).is_some_and(|line| insert(text, &line, rng))
    }),
    fault("a second p line, another", 16, |text, rng| {
        let line = format!("p edge {} {}", rng.between(0, 40), rng.between(0, 9));
        some_line(text, b"p", rng).is_some() && insert(text, line.as_bytes(), rng)
    }),
    fault("an e line before the p line", 16, |text, rng| {
        change_lines(text, |lines| {
            place_of(lines, b"p", rng).is_some_and(|at| {
                lines.insert(rng.between(0, at), b"e 1 2".to_vec());
                true
            })
        })
    }),
    fault("the p line behind an e line", 16, |text, _| {
        change_lines(text, |lines| {
            let place = |lines: &[Vec<u8>], letter| {
                lines.iter().position(|line| line.first() == Some(&letter))
            };
            match (place(lines, b'p'), place(lines, b'e')) {
                (Some(p), Some(e)) if p < e => {
                    lines.swap(p, e);
                    true
                }
                _ => false,
            }
        })
    }),
    fault("no p line", 16, |text, _| {
        keep_lines(text, |line| line.first() != Some(&b'p'))
    }),
    fault("no line but comments", 16, |text, _| {
        keep_lines(text, |line| line.is_empty() || line[0] == b'c')
    }),
    // 17
    fault("M one less", 17, |text, rng| {
        change_count(text, rng, |m| m.checked_sub(1).map(decimal))
    }),
    fault("M one more", 17, |text, rng| {
        change_count(text, rng, |m| Some(decimal(m + 1)))
    }),
    fault("M with the low bits of the number", 17, |text, rng| {
        let above = some_power(rng);
        change_count(text, rng, |m| Some(decimal(m + above)))
    }),
    fault("M near the cap", 17, |text, rng| {
        let number = near_the_cap(rng);
        change_count(text, rng, |_| Some(number))
    }),
    fault("M of 20 to 60 digits", 17, |text, rng| {
        let number = long_number(rng);
        change_count(text, rng, |_| Some(number))
    }),
    fault("another M in range", 17, |text, rng| {
        let other = rng.between(0, 256) as u128;
        change_count(text, rng, |m| (m != other).then(|| decimal(other)))
    }),
    fault("an e line twice", 17, |text, rng| {
        change_lines(text, |lines| {
            place_of(lines, b"e", rng).is_some_and(|at| {
                lines.insert(at, lines[at].clone());
                true
            })
        })
    }),
    fault("an e line lost", 17, |text, rng| {
        change_lines(text, |lines| {
            place_of(lines, b"e", rng).is_some_and(|at| {
                lines.remove(at);
                true
            })
        })
    }),
    // 3
    fault("N out of range", 3, |text, rng| {
        let number = decimal(rng.pick(&[0, 1, 33, 34, 99, 100, 255, 256, 257, 320]));
        change_nodes(text, rng, |_| number)
    }),
    fault("N with the low bits of one in range", 3, |text, rng| {
        let above = some_power(rng);
        change_nodes(text, rng, |n| decimal(n + above))
    }),
    fault("N near the cap", 3, |text, rng| {
        let number = near_the_cap(rng);
        change_nodes(text, rng, |_| number)
    }),
    fault("N of 20 to 60 digits", 3, |text, rng| {
        let number = long_number(rng);
        change_nodes(text, rng, |_| number)
    }),
    fault("all there for an M out of range", 3, |text, rng| {
        let (n, m) = (rng.between(2, 32), rng.pick(&[257, 258, 300, 512, 513]));
        *text = sound_of(n, m, rng);
        true
    }),
    // 6
    fault("an end of 0", 6, |text, rng| {
        change_end(text, rng, |_, _| decimal(0))
    }),
    fault("an end of N + 1", 6, |text, rng| {
        change_end(text, rng, |_, n| decimal(n + 1))
    }),
    fault("an end above N", 6, |text, rng| {
        let above = rng.between(1, 300) as u128;
        change_end(text, rng, |_, n| decimal(n + above))
    }),
    fault("an end with the low bits of its own", 6, |text, rng| {
        let above = some_power(rng);
        change_end(text, rng, |end, _| decimal(end + above))
    }),
    fault("an end near the cap", 6, |text, rng| {
        let number = near_the_cap(rng);
        change_end(text, rng, |_, _| number)
    }),
    fault("an end of 20 to 60 digits", 6, |text, rng| {
        let number = long_number(rng);
        change_end(text, rng, |_, _| number)
    }),
    fault("equal ends", 6, |text, rng| {
        change_tokens(text, b"e", rng, |tokens, rng| {
            let from = rng.between(1, 2);
            let token = tokens.get(from).cloned();
            token.is_some_and(|token| put(tokens, 3 - from, token))
        })
    }),
    // none
    fault("a comment more", 0, |text, rng| {
        let line = comment(rng);
        insert(text, &line, rng)
    }),
    fault("ends turned round", 0, |text, rng| {
        change_tokens(text, b"e", rng, |tokens, _| {
            let ends = tokens.len() == 3;
            if ends {
                tokens.swap(1, 2);
            }
            ends
        })
    }),
    fault("ends of 1 and N", 0, |text, rng| {
        let n = some_line(text, b"p", rng).and_then(|line| number_at(&line, 2));
        n.is_some_and(|n| {
            change_tokens(text, b"e", rng, |tokens, _| {
                *tokens = vec![b"e".to_vec(), decimal(1), decimal(n)];
                true
            })
        })
    }),
    // any
    fault_of_any_check("two lines exchanged", |text, rng| {
        change_lines(text, |lines| {
            let last = lines.len() - 1;
            let (a, b) = (rng.between(0, last), rng.between(0, last));
            lines.swap(a, b);
            a != b
        })
    }),
    fault_of_any_check("cut anywhere", |text, rng| {
        let keep = rng.between(0, text.len());
        let longer = keep < text.len();
        text.truncate(keep);
        longer
    }),
    fault_of_any_check("bits turned", |text, rng| {
        for _ in 0..rng.between(1, 3) {
            if !text.is_empty() {
                let at = rng.between(0, text.len() - 1);
                text[at] ^= 1 << rng.between(0, 7);
            }
        }
        !text.is_empty()
    }),
    fault_of_any_check("a byte put in", |text, rng| {
        let byte = some_byte(rng);
        text.insert(rng.between(0, text.len()), byte);
        true
    }),
    fault_of_any_check("a byte lost", |text, rng| {
        let any = !text.is_empty();
        if any {
            text.remove(rng.between(0, text.len() - 1));
        }
        any
    }),
    fault_of_any_check("random bytes alone", |text, rng| {
        *text = (0..rng.between(0, 60)).map(|_| some_byte(rng)).collect();
        true
    }),
];

/// Mostly a byte that stands in texts.
fn some_byte(rng: &mut Rng) -> u8 {
    let any = rng.byte();
    match rng.once_in(4) {
        true => any,
        false => rng.pick(b"\n\n\n  0123peedgc\r\t"),
    }
}

fn decimal(number: u128) -> Vec<u8> {
    number.to_string().into_bytes()
}

/// What is lost where a number is held in 8, 16, 32 or 64 bits.
fn some_power(rng: &mut Rng) -> u128 {
    let times = rng.between(1, 3) as u128;
    times << rng.pick(&[8, 16, 32, 64, 64, 64])
}

fn near_the_cap(rng: &mut Rng) -> Vec<u8> {
    decimal(CAP - 4 + rng.between(0, 16) as u128)
}

fn long_number(rng: &mut Rng) -> Vec<u8> {
    let more = rng.between(19, 59);
    let mut number = vec![rng.pick(b"123456789")];
    number.extend((0..more).map(|_| rng.pick(b"0123456789")));
    number
}

/// Changes a text by its lines. The last of them is what stands behind the last line feed: nothing, in a sound text.
fn change_lines(text: &mut Vec<u8>, change: impl FnOnce(&mut Vec<Vec<u8>>) -> bool) -> bool {
    let mut lines: Vec<Vec<u8>> = text
        .split(|&byte| byte == b'\n')
        .map(<[u8]>::to_vec)
        .collect();
    let changed = change(&mut lines);
    *text = lines.join(&b'\n');
    changed
}

/// Puts a line anywhere between the others.
fn insert(text: &mut Vec<u8>, line: &[u8], rng: &mut Rng) -> bool {
    change_lines(text, |lines| {
        let at = rng.between(0, lines.len() - 1);
        lines.insert(at, line.to_vec());
        true
    })
}

/// Keeps the lines that pass the test; false where all do.
fn keep_lines(text: &mut Vec<u8>, test: impl Fn(&[u8]) -> bool) -> bool {
    change_lines(text, |lines| {
        let all = lines.len();
        lines.retain(|line| test(line));
        if lines.is_empty() {
            lines.push(Vec::new());
        }
        lines.len() < all
    })
}

/// The place of some line that begins with one of these letters, each letter as likely as the others: the first of its lines, the
/// last, or any.
fn place_of(lines: &[Vec<u8>], letters: &[u8], rng: &mut Rng) -> Option<usize> {
    let begins = |letter: u8| {
        let places = 0..lines.len();
        places
            .filter(|&at| lines[at].first() == Some(&letter))
            .collect::<Vec<usize>>()
    };
    let of_letters = letters.iter().map(|&letter| begins(letter));
    let there: Vec<Vec<usize>> = of_letters.filter(|places| !places.is_empty()).collect();
    if there.is_empty() {
        return None;
    }
    let places = &there[rng.between(0, there.len() - 1)];
    let any = rng.pick(places);
    Some(rng.pick(&[places[0], any, places[places.len() - 1]]))
}

fn some_line(text: &[u8], letters: &[u8], rng: &mut Rng) -> Option<Vec<u8>> {
    let mut lines: Vec<Vec<u8>> = text
        .split(|&byte| byte == b'\n')
        .map(<[u8]>::to_vec)
        .collect();
    place_of(&lines, letters, rng).map(|at| lines.swap_remove(at))
}

/// Changes some line that begins with one of these letters.
fn change_line(
    text: &mut Vec<u8>,
    letters: &[u8],
    rng: &mut Rng,
    change: impl FnOnce(&mut Vec<u8>, &mut Rng) -> bool,
) -> bool {
    change_lines(text, |lines| {
        place_of(lines, letters, rng).is_some_and(|at| change(&mut lines[at], rng))
    })
}

/// Changes the tokens of some line that begins with one of these letters.
fn change_tokens(
    text: &mut Vec<u8>,
    letters: &[u8],
    rng: &mut Rng,
    change: impl FnOnce(&mut Vec<Vec<u8>>, &mut Rng) -> bool,
) -> bool {
    change_line(text, letters, rng, |line, rng| {
        let mut tokens: Vec<Vec<u8>> = line
            .split(|&byte| byte == b' ')
            .map(<[u8]>::to_vec)
            .collect();
        let changed = change(&mut tokens, rng);
        *line = tokens.join(&b' ');
        changed
    })
}

/// Puts a token in the place of another, if the line has so many and it is another.
fn put(tokens: &mut [Vec<u8>], at: usize, token: Vec<u8>) -> bool {
    let there = tokens.get(at).is_some_and(|old| *old != token);
    if there {
        tokens[at] = token;
    }
    there
}

/// The place of some such byte.
fn some_place(bytes: &[u8], byte: u8, rng: &mut Rng) -> Option<usize> {
    let places: Vec<usize> = (0..bytes.len()).filter(|&at| bytes[at] == byte).collect();
    (!places.is_empty()).then(|| rng.pick(&places))
}

/// Puts other bytes in the place of some space of a `p` or `e` line.
fn put_for_space(text: &mut Vec<u8>, by: &[u8], rng: &mut Rng) -> bool {
    change_line(text, b"pe", rng, |line, rng| {
        some_place(line, b' ', rng).is_some_and(|at| {
            line.splice(at..at + 1, by.iter().copied());
            true
        })
    })
}

/// Changes some number of a `p` or `e` line.
fn change_number(text: &mut Vec<u8>, rng: &mut Rng, change: impl FnOnce(&mut Vec<u8>)) -> bool {
    change_tokens(text, b"pe", rng, |tokens, rng| {
        let at = tokens.len().saturating_sub(rng.between(1, 2));
        let there = tokens.len() > 2;
        if there {
            change(&mut tokens[at]);
        }
        there
    })
}

/// The number that is this token of a line, where one stands there that 128 bits hold.
fn number_at(line: &[u8], at: usize) -> Option<u128> {
    let token = line.split(|&byte| byte == b' ').nth(at)?;
    let number = std::str::from_utf8(token).ok()?.parse::<u128>().ok()?;
    (number < 1 << 100).then_some(number)
}

/// Changes a number of some line of this letter.
fn change_number_at(
    text: &mut Vec<u8>,
    letter: &[u8],
    at: usize,
    rng: &mut Rng,
    change: impl FnOnce(u128) -> Option<Vec<u8>>,
) -> bool {
    change_tokens(text, letter, rng, |tokens, _| {
        let number = number_at(&tokens.join(&b' '), at).and_then(change);
        number.is_some_and(|number| put(tokens, at, number))
    })
}

fn change_nodes(text: &mut Vec<u8>, rng: &mut Rng, change: impl FnOnce(u128) -> Vec<u8>) -> bool {
    change_number_at(text, b"p", 2, rng, |n| Some(change(n)))
}

fn change_count(
    text: &mut Vec<u8>,
    rng: &mut Rng,
    change: impl FnOnce(u128) -> Option<Vec<u8>>,
) -> bool {
    change_number_at(text, b"p", 3, rng, change)
}

/// Changes an end of some `e` line, which depends on itself and on N.
fn change_end(
    text: &mut Vec<u8>,
    rng: &mut Rng,
    change: impl FnOnce(u128, u128) -> Vec<u8>,
) -> bool {
    let n = some_line(text, b"p", rng).and_then(|line| number_at(&line, 2));
    let at = rng.between(1, 2);
    n.is_some_and(|n| change_number_at(text, b"e", at, rng, |end| Some(change(end, n))))
}
