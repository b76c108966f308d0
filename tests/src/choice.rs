//! Which of its two ways the library's Front goes: it walks the list where there can be but few trees, else it searches.

use crate::file::{Network, BARRED};

/// The rows at each node but the plant that are not barred, multiplied: no network has more trees.
pub fn product(network: &Network) -> f64 {
    let rows = || network.rows.iter().filter(|row| row.state != BARRED);
    let at = |node: u8| rows().filter(|row| row.ends.contains(&node)).count() as f64;
    (2..=network.n).map(at).product()
}

/// Whether the library searches.
pub fn is_searched(network: &Network) -> bool {
    product(network) > searched_above(network.k())
}

/// The greatest product of a network of k criteria that is walked.
pub fn searched_above(k: usize) -> f64 {
    10f64.powi(3 + k as i32)
}
