//! DIMACS edge files (document 02, #104): the network file that a text is read into, and the text that a network file is written
//! as. Each gives the number of the check that refuses a call, or what the call writes. A buffer is told by its number of places.

use crate::file::{Network, Row};
use crate::reading;

/// A number by its digits, so that it may have any length. Without leading zeros the longer of two is the greater, and of two as
/// long the one whose digits come later; the fields stand in this order.
#[derive(Clone, Copy, PartialEq, Eq, PartialOrd, Ord)]
struct Number<'a> {
    length: usize,
    digits: &'a [u8],
}

impl<'a> Number<'a> {
    fn of(digits: &'a [u8]) -> Number<'a> {
        Number {
            length: digits.len(),
            digits,
        }
    }

    /// A token that is a decimal number without leading zeros.
    fn read(token: &'a [u8]) -> Result<Number<'a>, u32> {
        let decimal = !token.is_empty() && token.iter().all(u8::is_ascii_digit);
        let leading_zero = token.len() > 1 && token[0] == b'0';
        if !decimal || leading_zero {
            return Err(16);
        }
        Ok(Number::of(token))
    }

    /// The value of a number that a byte holds.
    fn byte(self) -> u8 {
        std::str::from_utf8(self.digits).unwrap().parse().unwrap()
    }
}

#[derive(Clone, Copy)]
enum Line<'a> {
    Comment,
    Problem([Number<'a>; 2]),
    Edge([Number<'a>; 2]),
}

/// A line by its tokens.
fn line(bytes: &[u8]) -> Result<Line<'_>, u32> {
    let tokens: Vec<&[u8]> = bytes.split(|&byte| byte == b' ').collect();
    match tokens[..] {
        [b"c", ..] => Ok(Line::Comment),
        [b"p", b"edge", n, m] => Ok(Line::Problem([Number::read(n)?, Number::read(m)?])),
        [b"e", u, v] => Ok(Line::Edge([Number::read(u)?, Number::read(v)?])),
        _ => Err(16),
    }
}

/// The lines of a text that are not comments; each ends with a line feed.
fn lines(text: &[u8]) -> Result<Vec<Line<'_>>, u32> {
    let ended = text.strip_suffix(b"\n").ok_or(16u32)?;
    let lines: Result<Vec<Line>, u32> = ended.split(|&byte| byte == b'\n').map(line).collect();
    let mut lines = lines?;
    lines.retain(|line| !matches!(line, Line::Comment));
    Ok(lines)
}

/// What was made, if it fits into so many places.
pub fn fitting(made: Vec<u8>, places: usize) -> Result<Vec<u8>, u32> {
    // 11: a buffer too short.
    if made.len() > places {
        return Err(11);
    }
    Ok(made)
}

/// The network file of a text.
pub fn read(text: &[u8], places: usize) -> Result<Vec<u8>, u32> {
    // 16: a line not of these forms, a second `p` line, an `e` line before it, or no `p` line.
    let lines = lines(text)?;
    let Some((Line::Problem([n, m]), rest)) = lines.split_first() else {
        return Err(16);
    };
    let mut edges = Vec::new();
    for line in rest {
        match *line {
            Line::Edge(ends) => edges.push(ends),
            _ => return Err(16),
        }
    }

    // 17: fewer or more edge lines than M.
    if edges.len().to_string().as_bytes() != m.digits {
        return Err(17);
    }

    // 3: n or m out of range.
    if *n < Number::of(b"2") || *n > Number::of(b"32") || *m > Number::of(b"256") {
        return Err(3);
    }

    // 6: an end of 0 or above n, or equal ends.
    let zero = Number::of(b"0");
    for &[u, v] in &edges {
        if u == zero || u > *n || v == zero || v > *n || u == v {
            return Err(6);
        }
    }
    let row = |ends: [Number; 2]| Row::new(ends.map(Number::byte), 0, vec![1]);
    let rows = edges.into_iter().map(row).collect();
    fitting(Network::new(n.byte(), vec![0], rows).encode(), places)
}

/// The text of a network file: the ends of all its rows.
pub fn write(file: &[u8], places: usize) -> Result<Vec<u8>, u32> {
    let network = reading::network(file)?;
    let mut text = format!("p edge {} {}\n", network.n, network.m());
    for row in &network.rows {
        let [u, v] = row.ends;
        text += &format!("e {u} {v}\n");
    }
    fitting(text.into_bytes(), places)
}
