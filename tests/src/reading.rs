//! The network file as document 01 describes it, and document 02 #102 its version 2: Open's checks, and the network that a
//! file holds.
//! Like all of the independent code it is written from the document's text alone and wants to be obvious, not fast.

use crate::file::{Network, Row};

/// The most significant byte comes first.
fn number(bytes: &[u8]) -> usize {
    bytes
        .iter()
        .fold(0, |high, &byte| high * 256 + byte as usize)
}

/// Open: n, m and k, or the number of the first check that refuses the file.
pub fn open(file: &[u8]) -> Result<(u32, u32, u32), u32> {
    // 1: empty, or version neither 1 nor 2.
    if file.is_empty() || !(1..=2).contains(&file[0]) {
        return Err(1);
    }
    // Version 2 has a state byte in each row, after the street.
    let states = file[0] as usize - 1;

    // 2: fewer than 9 bytes, or the length field is not the file's length less 5.
    if file.len() < 9 {
        return Err(2);
    }
    let length = number(&file[1..5]);
    if length != file.len() - 5 {
        return Err(2);
    }

    // 3: n, m or k out of range.
    let n = number(&file[5..6]);
    let m = number(&file[6..8]);
    let k = number(&file[8..9]);
    if !(2..=32).contains(&n) || m > 256 || !(1..=4).contains(&k) {
        return Err(3);
    }

    // 4: the length is not 4 + k + m × (4 + 4 × k), or 5 + 4 × k in version 2.
    if length != 4 + k + m * (4 + states + 4 * k) {
        return Err(4);
    }

    // 5: a kind byte above 2.
    let (kinds, rows) = file[9..].split_at(k);
    if kinds.iter().any(|&kind| kind > 2) {
        return Err(5);
    }

    // 6: a row with an end of 0 or above n, or with equal ends.
    let rows: Vec<&[u8]> = rows.chunks(4 + states + 4 * k).collect();
    for row in &rows {
        let (a, b) = (row[0] as usize, row[1] as usize);
        if a == 0 || a > n || b == 0 || b > n || a == b {
            return Err(6);
        }
    }

    // 7: a cost above 1,000,000.
    for row in &rows {
        if row[4 + states..]
            .chunks(4)
            .any(|cost| number(cost) > 1_000_000)
        {
            return Err(7);
        }
    }

    // 14: a state byte above 2.
    for row in &rows {
        if row[4..4 + states].iter().any(|&state| state > 2) {
            return Err(14);
        }
    }

    Ok((n as u32, m as u32, k as u32))
}

/// The network that a file holds, or the number of the first check that refuses the file.
pub fn network(file: &[u8]) -> Result<Network, u32> {
    let (n, _, k) = open(file)?;
    let k = k as usize;
    let (kinds, rows) = file[9..].split_at(k);
    let costs = |bytes: &[u8]| bytes.chunks(4).map(|cost| number(cost) as u32).collect();
    let row = |bytes: &[u8]| {
        let ends = [bytes[0], bytes[1]];
        let street = number(&bytes[2..4]) as u16;
        match file[0] {
            1 => Row::new(ends, street, costs(&bytes[4..])),
            _ => Row {
                state: bytes[4],
                ..Row::new(ends, street, costs(&bytes[5..]))
            },
        }
    };
    let row_bytes = if file[0] == 1 { 4 + 4 * k } else { 5 + 4 * k };
    Ok(Network {
        version: file[0],
        n: n as u8,
        kinds: kinds.to_vec(),
        rows: rows.chunks(row_bytes).map(row).collect(),
    })
}
