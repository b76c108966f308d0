//! How many trees the list of a network has (document 02, #112), by Kirchhoff's theorem: a determinant, in which no row is
//! dropped and merged in turn. The must rows are merged before it, and the barred rows are left out.

use crate::file::{Network, BARRED, MUST};
use crate::trees;

/// The most trees that Count answers.
pub const MOST_TREES: u64 = 4_000_000_000;

/// Three primes just below 2^61.
pub const PRIMES: [u64; 3] = [(1 << 61) - 1, (1 << 61) - 31, (1 << 61) - 45];

/// The number of trees; nothing where it is as large as the smallest of the primes, far above `MOST_TREES`.
///
/// The determinant is worked out modulo each prime, and three equal remainders are the number itself. For a tree gives each
/// node but the first a row of its own, the one towards the first, so that there are no more trees than the product of these
/// nodes' rows, which is at most 512 / 31 to the power 31 and below 2^126. So the number is below the product of the primes,
/// and its three remainders say which it is; equal ones say so of a number below every prime, and such a number has them.
pub fn count(network: &Network) -> Option<u64> {
    if trees::must_cycle(network) {
        return Some(0);
    }
    let musts = trees::rows_of(network, |state| state == MUST);
    let matrix = matrix(network, &musts);
    let [a, b, c] = PRIMES.map(|prime| determinant(&matrix, prime));
    (a == b && b == c).then_some(a)
}

/// The matrix whose determinant is the number of spanning trees of the rows that are not barred, once the ends of some rows are
/// merged: each node but the first has its rows on the diagonal, and each row of two of them takes one away beside it. A row
/// between merged nodes leaves nothing.
pub fn matrix(network: &Network, merged: &[u16]) -> Vec<Vec<i64>> {
    let labels = trees::labels(network, merged);
    let mut parts = labels[1..].to_vec();
    parts.sort();
    parts.dedup();
    let place = |end: u8| {
        let part = parts.iter().position(|&part| part == labels[end as usize]);
        part.unwrap().checked_sub(1)
    };
    let mut matrix = vec![vec![0; parts.len() - 1]; parts.len() - 1];
    for row in network.rows.iter().filter(|row| row.state != BARRED) {
        let [a, b] = row.ends.map(place);
        for end in [a, b].into_iter().flatten() {
            matrix[end][end] += 1;
        }
        if let (Some(a), Some(b)) = (a, b) {
            matrix[a][b] -= 1;
            matrix[b][a] -= 1;
        }
    }
    matrix
}

/// The determinant modulo a prime, by elimination.
fn determinant(matrix: &[Vec<i64>], prime: u64) -> u64 {
    let times = |a, b| times(a, b, prime);
    let mut lines: Vec<Vec<u64>> = matrix
        .iter()
        .map(|line| line.iter().map(|&x| x.rem_euclid(prime as i64) as u64))
        .map(Iterator::collect)
        .collect();
    let size = lines.len();
    let mut product = 1;
    for i in 0..size {
        let Some(pivot) = (i..size).find(|&j| lines[j][i] != 0) else {
            return 0;
        };
        if pivot != i {
            lines.swap(i, pivot);
            product = prime - product;
        }
        product = times(product, lines[i][i]);
        let inverse = power(lines[i][i], prime - 2, prime);
        for j in i + 1..size {
            let factor = times(lines[j][i], inverse);
            for column in i..size {
                let less = times(factor, lines[i][column]);
                lines[j][column] = (lines[j][column] + prime - less) % prime;
            }
        }
    }
    product
}

fn times(a: u64, b: u64, prime: u64) -> u64 {
    (a as u128 * b as u128 % prime as u128) as u64
}

/// A number to a power, modulo a prime.
pub fn power(base: u64, exponent: u64, prime: u64) -> u64 {
    let bits = (0..64).rev().map(|bit| exponent >> bit & 1);
    bits.fold(1, |power, bit| {
        let square = times(power, power, prime);
        if bit == 1 {
            times(square, base, prime)
        } else {
            square
        }
    })
}
