//! DIMACS edge files read and written, beside plain Rust that makes the same checks and answers the same.

use planner_tests::ffi;
use planner_tests::file::Network;
use planner_tests::rng::Rng;

use crate::compare_calls;

/// A number without leading zeros. One that 64 bits do not hold stays above every limit.
fn number(token: &[u8]) -> Option<u64> {
    if let [] | [b'0', _, ..] = token {
        return None;
    }
    token.iter().try_fold(0u64, |high, byte| {
        let digit = byte.wrapping_sub(b'0');
        (digit < 10).then(|| high.saturating_mul(10).saturating_add(digit as u64))
    })
}

fn two_numbers(bytes: &[u8]) -> Option<[u64; 2]> {
    let space = bytes.iter().position(|&byte| byte == b' ')?;
    Some([number(&bytes[..space])?, number(&bytes[space + 1..])?])
}

/// Reads a text into a network file; its length, or the number that refuses it.
fn plain_read(text: &[u8], buffer: &mut [u8]) -> Result<usize, u32> {
    let mut problem = None;
    let mut edges = Vec::new();
    let lines = text.strip_suffix(b"\n").ok_or(16u32)?;
    for line in lines.split(|&byte| byte == b'\n') {
        if line == b"c" || line.starts_with(b"c ") {
            continue;
        }
        if let Some(ends) = line.strip_prefix(b"e ") {
            edges.push(two_numbers(ends).ok_or(16u32)?);
            problem.ok_or(16u32)?;
        } else if let Some(sizes) = line.strip_prefix(b"p edge ") {
            let sizes = two_numbers(sizes).ok_or(16u32)?;
            if problem.replace(sizes).is_some() {
                return Err(16);
            }
        } else {
            return Err(16);
        }
    }
    let [n, m] = problem.ok_or(16u32)?;
    if edges.len() as u64 != m {
        return Err(17);
    }
    if !(2..=32).contains(&n) || m > 256 {
        return Err(3);
    }
    let is_node = |end: u64| (1..=n).contains(&end);
    if !edges
        .iter()
        .all(|&[u, v]| is_node(u) && is_node(v) && u != v)
    {
        return Err(6);
    }
    let length = 10 + 8 * edges.len();
    let file = buffer.get_mut(..length).ok_or(11u32)?;
    let (head, rows) = file.split_at_mut(10);
    head[0] = 1;
    head[1..5].copy_from_slice(&(length as u32 - 5).to_be_bytes());
    head[5] = n as u8;
    head[6..8].copy_from_slice(&(m as u16).to_be_bytes());
    head[8..].copy_from_slice(&[1, 0]);
    for (row, [u, v]) in rows.chunks_exact_mut(8).zip(edges) {
        row.copy_from_slice(&[u as u8, v as u8, 0, 0, 0, 0, 0, 1]);
    }
    Ok(length)
}

/// The nodes of a network file and how long a row of it is, or the number that refuses it.
pub fn plain_open(file: &[u8]) -> Result<(u8, usize), u32> {
    let number = |bytes: &[u8]| {
        bytes
            .iter()
            .fold(0, |high, &byte| high << 8 | byte as usize)
    };
    let states = match file {
        [version @ 1..=2, ..] => *version as usize - 1,
        _ => return Err(1),
    };
    if file.len() < 9 || number(&file[1..5]) != file.len() - 5 {
        return Err(2);
    }
    let (n, m, k) = (file[5], number(&file[6..8]), file[8] as usize);
    if !(2..=32).contains(&n) || m > 256 || !(1..=4).contains(&k) {
        return Err(3);
    }
    let row = 4 + states + 4 * k;
    if file.len() - 9 != k + m * row {
        return Err(4);
    }
    let (kinds, rows) = file[9..].split_at(k);
    if kinds.iter().any(|&kind| kind > 2) {
        return Err(5);
    }
    let is_node = |end: u8| (1..=n).contains(&end);
    let sound = |row: &[u8]| is_node(row[0]) && is_node(row[1]) && row[0] != row[1];
    if !rows.chunks_exact(row).all(sound) {
        return Err(6);
    }
    let costs = |row: &[u8]| {
        row[4 + states..]
            .chunks_exact(4)
            .all(|cost| number(cost) <= 1_000_000)
    };
    if !rows.chunks_exact(row).all(costs) {
        return Err(7);
    }
    if states == 1 && rows.chunks_exact(row).any(|row| row[4] > 2) {
        return Err(14);
    }
    Ok((n, row))
}

fn push_number(text: &mut Vec<u8>, number: usize) {
    if number >= 10 {
        push_number(text, number / 10);
    }
    text.push(b'0' + (number % 10) as u8);
}

/// Writes a network file as text; its length, or the number that refuses it.
fn plain_write(file: &[u8], buffer: &mut [u8]) -> Result<usize, u32> {
    let (n, row) = plain_open(file)?;
    let rows = file[9 + file[8] as usize..].chunks_exact(row);
    let mut text = Vec::with_capacity(16 + 10 * rows.len());
    text.extend(b"p edge ");
    push_number(&mut text, n as usize);
    text.push(b' ');
    push_number(&mut text, rows.len());
    text.push(b'\n');
    for row in rows {
        text.extend(b"e ");
        push_number(&mut text, row[0] as usize);
        text.push(b' ');
        push_number(&mut text, row[1] as usize);
        text.push(b'\n');
    }
    buffer
        .get_mut(..text.len())
        .ok_or(11u32)?
        .copy_from_slice(&text);
    Ok(text.len())
}

/// The text of a network, with two comments at its head and one before every eighth edge line.
fn text_with_comments(network: &Network) -> Vec<u8> {
    let mut text = format!(
        "c {} nodes, {} edges\nc\np edge {0} {1}\n",
        network.n,
        network.m()
    );
    for (i, row) in network.rows.iter().enumerate() {
        if i % 8 == 0 {
            text += &format!("c edges {} to {}\n", i + 1, i + 8);
        }
        text += &format!("e {} {}\n", row.ends[0], row.ends[1]);
    }
    text.into_bytes()
}

pub fn table() {
    let network = Network::random(&mut Rng::new(104), 32, 256, 1);
    let text = text_with_comments(&network);
    println!("DIMACS edge files: 32 nodes and 256 edges, nanoseconds a call");
    println!(
        "{:36} {:>9} {:>12} {:>12} {:>8}",
        "", "calls", "library", "plain Rust", "ratio"
    );
    let read = format!("a text of {} bytes read", text.len());
    let file = compare_calls(
        &read,
        [&text],
        |[text], buffer, answer| ffi::dimacs_read(text, buffer, answer),
        |[text], buffer| plain_read(text, buffer),
    );
    let written = format!("a file of {} bytes written", file.len());
    compare_calls(
        &written,
        [&file],
        |[file], buffer, answer| ffi::dimacs_write(file, buffer, answer),
        |[file], buffer| plain_write(file, buffer),
    );
}
