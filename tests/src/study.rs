//! The networks of the study of Front's search, made by its own generator of numbers (xorshift), so that what is measured
//! here compares with the study's figures: street grids, random sparse networks and complete graphs.

use crate::file::{Network, Row};

struct Numbers(u64);

impl Numbers {
    fn new(instance: u64) -> Numbers {
        let mut numbers =
            Numbers(88_172_645_463_325_252 ^ instance.wrapping_mul(0x9e37_79b9_7f4a_7c15));
        for _ in 0..20 {
            numbers.word();
        }
        numbers
    }

    fn word(&mut self) -> u32 {
        self.0 ^= self.0 << 13;
        self.0 ^= self.0 >> 7;
        self.0 ^= self.0 << 17;
        (self.0 >> 11) as u32
    }

    /// A number from low to high, both included.
    fn between(&mut self, low: u32, high: u32) -> u32 {
        low + self.word() % (high - low + 1)
    }

    fn shuffle<T>(&mut self, items: &mut [T]) {
        for last in (1..items.len()).rev() {
            items.swap(last, self.between(0, last as u32) as usize);
        }
    }

    /// Metres, a crossing or days, by the kind.
    fn cost(&mut self, kind: u8) -> u32 {
        match kind {
            0 => self.between(20, 400),
            1 => self.between(0, 9),
            _ => self.between(1, 10),
        }
    }

    /// The same, but most crossings are easy, so that many tie.
    fn street_cost(&mut self, kind: u8) -> u32 {
        match kind {
            1 if self.between(0, 2) != 0 => self.between(0, 3),
            _ => self.cost(kind),
        }
    }
}

/// A grid of streets with so many trenches beside others, its nodes and rows in any sequence. The first ten lines of the grid
/// are streets, the rows of the others are off the road, and so is one in three of the trenches beside.
pub fn grid(lines: u8, columns: u8, beside: usize, kinds: &[u8], instance: u64) -> Network {
    let numbers = &mut Numbers::new(instance);
    let n = lines * columns;
    let mut nodes: Vec<u8> = (1..=n).collect();
    numbers.shuffle(&mut nodes);
    let node = |line: u8, column: u8| nodes[(line * columns + column) as usize];
    let street = |line: u8| if line < 10 { line as u16 + 1 } else { 0 };
    let mut rows = Vec::new();
    for line in 0..lines {
        for column in 0..columns {
            let here = node(line, column);
            if column + 1 < columns {
                let ends = [here, node(line, column + 1)];
                rows.push(Row::new(ends, street(line), Vec::new()));
            }
            if line + 1 < lines {
                let ends = [here, node(line + 1, column)];
                rows.push(Row::new(ends, street(lines + column), Vec::new()));
            }
        }
    }
    for _ in 0..beside {
        let mut row = rows[numbers.between(0, rows.len() as u32 - 1) as usize].clone();
        if numbers.between(0, 2) == 0 {
            row.street = 0;
        }
        rows.push(row);
    }
    for row in &mut rows {
        row.costs = kinds
            .iter()
            .map(|&kind| numbers.street_cost(kind))
            .collect();
    }
    numbers.shuffle(&mut rows);
    Network::new(n, kinds.to_vec(), rows)
}

/// Each node joined to one of the four before it, and rows between any two nodes until there are m; eight streets.
pub fn sparse(n: u8, m: usize, kinds: &[u8], instance: u64) -> Network {
    let numbers = &mut Numbers::new(instance);
    let mut pairs = Vec::new();
    for node in 2..=n {
        let first = node.saturating_sub(4).max(1);
        let before = numbers.between(first as u32, node as u32 - 1) as u8;
        pairs.push([before, node]);
    }
    while pairs.len() < m {
        let ends = [(); 2].map(|_| numbers.between(1, n as u32) as u8);
        if ends[0] != ends[1] {
            pairs.push(ends);
        }
    }
    let row = |ends| {
        let street = numbers.between(0, 8) as u16;
        let costs = kinds.iter().map(|&kind| numbers.cost(kind)).collect();
        Row::new(ends, street, costs)
    };
    Network::new(n, kinds.to_vec(), pairs.into_iter().map(row).collect())
}

/// A row between each two nodes, with costs of 0 to 100 of every kind; eight streets.
pub fn complete(n: u8, kinds: &[u8], instance: u64) -> Network {
    let numbers = &mut Numbers::new(instance);
    let pair = |a| (a + 1..=n).map(move |b| [a, b]);
    let mut row = |ends| {
        let costs = kinds.iter().map(|_| numbers.between(0, 100)).collect();
        Row::new(ends, 0, costs)
    };
    let mut rows: Vec<Row> = (1..=n).flat_map(pair).map(&mut row).collect();
    for row in &mut rows {
        row.street = numbers.between(0, 8) as u16;
    }
    Network::new(n, kinds.to_vec(), rows)
}
