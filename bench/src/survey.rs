//! A newer survey over an older, beside plain Rust that makes the same checks and answers the same.

use planner_tests::ffi;
use planner_tests::rng::Rng;
use planner_tests::surveys::Surveys;

use crate::compare_calls;
use crate::dimacs::plain_open;

/// Writes the newer survey over the older; the file's length, or the number that refuses them.
fn plain_survey(older: &[u8], newer: &[u8], buffer: &mut [u8]) -> Result<usize, u32> {
    let (older_n, older_row) = plain_open(older)?;
    let (newer_n, newer_row) = plain_open(newer)?;
    let (older_head, older_rows) = older.split_at(9 + older[8] as usize);
    let (newer_head, newer_rows) = newer.split_at(9 + newer[8] as usize);
    if older_n != newer_n || older_head[8..] != newer_head[8..] {
        return Err(18);
    }
    let older_rows = older_rows.chunks_exact(older_row);
    let newer_rows = newer_rows.chunks_exact(newer_row);
    let stands = |row: &&[u8]| {
        !newer_rows
            .clone()
            .any(|new| new[0] == row[0] && new[1] == row[1] || new[0] == row[1] && new[1] == row[0])
    };
    let standing: Vec<&[u8]> = older_rows.filter(stands).collect();
    let m = standing.len() + newer_rows.len();
    if m > 256 {
        return Err(19);
    }
    let costs = 4 * older[8] as usize;
    let length = older_head.len() + m * (5 + costs);
    let file = buffer.get_mut(..length).ok_or(11u32)?;
    let (head, rows) = file.split_at_mut(older_head.len());
    head.copy_from_slice(older_head);
    head[0] = 2;
    head[1..5].copy_from_slice(&(length as u32 - 5).to_be_bytes());
    head[6..8].copy_from_slice(&(m as u16).to_be_bytes());
    let from = standing.into_iter().chain(newer_rows);
    for (row, from) in rows.chunks_exact_mut(5 + costs).zip(from) {
        row[..4].copy_from_slice(&from[..4]);
        row[4] = if from.len() == 5 + costs { from[4] } else { 0 };
        row[5..].copy_from_slice(&from[from.len() - costs..]);
    }
    Ok(length)
}

pub fn table() {
    println!(
        "A newer survey over an older: 32 nodes, 4 criteria, 256 rows written, nanoseconds a call"
    );
    println!(
        "{:36} {:>9} {:>12} {:>12} {:>8}",
        "rows that stand, go and are new", "calls", "library", "plain Rust", "ratio"
    );
    let rng = &mut Rng::new(106);
    for counts in [[128, 0, 128], [128, 128, 128], [0, 256, 256], [256, 0, 0]] {
        let surveys = Surveys::new(32, 4, counts, rng);
        let [stand, go, new] = counts;
        compare_calls(
            &format!("{stand}, {go} and {new}"),
            [&surveys.older.encode(), &surveys.newer.encode()],
            |[older, newer], buffer, answer| ffi::survey(older, newer, buffer, answer),
            |[older, newer], buffer| plain_survey(older, newer, buffer),
        );
    }
}
