//! The front without the list: its rows are found one after the other, each as the least vector that those before it do not
//! meet, and its witness is grown step by step as the first path that has this vector. Both ask one question only: is
//! there a tree with these rows and none of those, each of whose components is below its limit? It is answered by rows
//! taken in or left out, in any sequence, and by the lightest trees of what is left, for one criterion and for a sum of
//! them with factors. Written for the tests from the method alone, not from the library's code.

use crate::costs::{self, Entry, Vector};
use crate::file::{Network, Row, BARRED, MUST};
use crate::trees;

/// What each component must be below.
type Limits = [u64; 4];

const NO_LIMIT: u64 = u64::MAX;

/// A row's weight in a sum of criteria is a whole number: so many parts of a day, and so many steps of a factor.
const PARTS: u64 = 2_520;
const STEPS: f64 = 1_000.0;

/// How many sums with factors are tried before a row is taken or left out.
const SUMS: usize = 3;

/// At most so many rows of the front, and whether they are all of it; no row where there is no tree.
pub fn front(network: &Network, capacity: usize) -> (Vec<Entry>, bool) {
    let search = Search::new(network);
    let mut entries: Vec<Entry> = Vec::new();
    let mut boxes = vec![[NO_LIMIT; 4]];
    let mut seen = Vec::new();
    while let Some(vector) = search.least(&boxes, &mut seen) {
        if entries.len() == capacity {
            return (entries, false);
        }
        boxes = split(boxes, &vector);
        seen.retain(|other| !no_larger(&vector, other));
        let witness = search.first_path(&vector);
        entries.push((vector, witness));
    }
    (entries, true)
}

fn no_larger(v: &[u32], w: &[u32]) -> bool {
    v.iter().zip(w).all(|(a, b)| a <= b)
}

/// Boxes that hold what the old ones hold but what this vector meets. No later vector has a smaller first component, so
/// another one must be smaller.
fn split(boxes: Vec<Limits>, vector: &[u32]) -> Vec<Limits> {
    let meets = |limits: &Limits| (1..vector.len()).all(|c| (vector[c] as u64) < limits[c]);
    let (met, mut kept): (Vec<Limits>, Vec<Limits>) = boxes.into_iter().partition(meets);
    for limits in met {
        for c in 1..vector.len() {
            let mut below = limits;
            below[c] = vector[c] as u64;
            let within = |a: &Limits, b: &Limits| a.iter().zip(b).all(|(a, b)| a <= b);
            if below[c] > 0 && !kept.iter().any(|other| within(&below, other)) {
                kept.retain(|other| !within(other, &below));
                kept.push(below);
            }
        }
    }
    kept
}

/// A set of rows.
#[derive(Clone, Copy, Default)]
struct Rows([u64; 4]);

impl Rows {
    fn has(&self, row: u16) -> bool {
        self.0[row as usize / 64] >> (row % 64) & 1 == 1
    }

    fn put(&mut self, row: u16) {
        self.0[row as usize / 64] |= 1 << (row % 64);
    }

    fn drop(&mut self, row: u16) {
        self.0[row as usize / 64] &= !(1 << (row % 64));
    }
}

/// Nodes in parts: a node leads to another one of its part, the last of them to itself.
#[derive(Clone, Copy)]
struct Parts([u8; 33]);

impl Parts {
    fn single() -> Parts {
        Parts(std::array::from_fn(|node| node as u8))
    }

    fn of(&self, node: u8) -> u8 {
        let mut node = node;
        while self.0[node as usize] != node {
            node = self.0[node as usize];
        }
        node
    }

    /// Makes one part of the two that the ends lie in; false if they lie in one already.
    fn join(&mut self, [a, b]: [u8; 2]) -> bool {
        let (a, b) = (self.of(a), self.of(b));
        self.0[a as usize] = b;
        a != b
    }
}

/// Where a search stands: what is taken, what may still be taken, and what that costs so far.
#[derive(Clone)]
struct Stand {
    taken: Vec<u16>,
    free: Rows,
    parts: Parts,
    paid: Limits,
    /// for each street the days that it is closed for, by each criterion
    closed: Vec<Limits>,
    /// for each criterion its factor in the sum that was tried last
    factors: [f64; 4],
}

/// The lightest rows that join all parts.
struct Lightest {
    rows: Vec<u16>,
    weight: u64,
    /// for each two nodes of different parts the largest weight on the way from one to the other
    between: [[u64; 33]; 33],
}

struct Search<'a> {
    network: &'a Network,
    /// for each row its costs, with places to spare
    costs: Vec<Limits>,
    /// for each row its street, numbered from 1 on; 0 stands for none
    streets: Vec<usize>,
    /// how many streets there are, with 0
    named: usize,
    /// for each criterion all rows, the cheapest first
    orders: Vec<Vec<u16>>,
    musts: Vec<u16>,
    /// the rows that are neither must rows nor barred
    open: Rows,
}

impl Search<'_> {
    fn new(network: &Network) -> Search<'_> {
        let mut names: Vec<u16> = network.rows.iter().map(|row| row.street).collect();
        names.push(0);
        names.sort();
        names.dedup();
        let street = |name| names.binary_search(&name).unwrap();
        let mut open = Rows::default();
        let mut musts = Vec::new();
        for (row, of) in (0..).zip(&network.rows) {
            match of.state {
                BARRED => {}
                MUST => musts.push(row),
                _ => open.put(row),
            }
        }
        let order = |criterion: usize| {
            let mut rows: Vec<u16> = (0..network.m() as u16).collect();
            rows.sort_by_key(|&row| network.rows[row as usize].costs[criterion]);
            rows
        };
        let costs = |row: &Row| {
            let mut costs = [0; 4];
            for (place, &cost) in costs.iter_mut().zip(&row.costs) {
                *place = cost as u64;
            }
            costs
        };
        Search {
            network,
            costs: network.rows.iter().map(costs).collect(),
            streets: network.rows.iter().map(|row| street(row.street)).collect(),
            named: names.len(),
            orders: (0..network.k()).map(order).collect(),
            musts,
            open,
        }
    }

    fn ends(&self, row: u16) -> [u8; 2] {
        self.network.rows[row as usize].ends
    }

    fn cost(&self, row: u16, criterion: usize) -> u64 {
        self.costs[row as usize][criterion]
    }

    /// The least vector in one of the boxes. Vectors that were seen on the way are kept for the next row.
    fn least(&self, boxes: &[Limits], seen: &mut Vec<Vector>) -> Option<Vector> {
        let mut best = seen.iter().min().cloned();
        for limits in boxes {
            while let Some(vector) = self.below(limits, best.as_ref()) {
                if !seen.iter().any(|other| no_larger(other, &vector)) {
                    seen.push(vector.clone());
                }
                best = Some(vector);
            }
        }
        best
    }

    /// A vector in the box that is less than this one; any vector in the box, if there is none yet.
    fn below(&self, limits: &Limits, best: Option<&Vector>) -> Option<Vector> {
        let Some(best) = best else {
            return self.vector_in(limits);
        };
        // It is smaller in some component, and in none before.
        (0..best.len()).find_map(|c| {
            let mut lower = *limits;
            for before in 0..c {
                lower[before] = lower[before].min(best[before] as u64 + 1);
            }
            lower[c] = lower[c].min(best[c] as u64);
            self.vector_in(&lower)
        })
    }

    fn vector_in(&self, limits: &Limits) -> Option<Vector> {
        let tree = self.tree_with(&[], self.open, limits)?;
        Some(costs::vector(self.network, &tree))
    }

    /// A tree with these rows and the must rows, its others free, inside the limits.
    fn tree_with(&self, rows: &[u16], free: Rows, limits: &Limits) -> Option<Vec<u16>> {
        let mut stand = Stand {
            taken: Vec::new(),
            free,
            parts: Parts::single(),
            paid: [0; 4],
            closed: vec![[0; 4]; self.named],
            factors: [0.0; 4],
        };
        let others = self.musts.iter().filter(|must| !rows.contains(must));
        for &row in rows.iter().chain(others) {
            if !self.take(&mut stand, row) {
                return None;
            }
        }
        self.find(stand, limits)
    }

    /// Takes a row in; false if it closes a cycle.
    fn take(&self, stand: &mut Stand, row: u16) -> bool {
        stand.free.drop(row);
        for c in 0..self.network.k() {
            let paid = self.paid_with(stand, row, c);
            stand.paid[c] = paid;
            let days = &mut stand.closed[self.streets[row as usize]][c];
            *days = self.cost(row, c).max(*days);
        }
        stand.taken.push(row);
        stand.parts.join(self.ends(row))
    }

    /// What the rows taken cost with this one.
    fn paid_with(&self, stand: &Stand, row: u16, criterion: usize) -> u64 {
        let paid = stand.paid[criterion];
        match self.network.kinds[criterion] {
            1 => paid.max(self.cost(row, criterion)),
            2 => paid + self.longer(stand, row, criterion),
            _ => paid + self.cost(row, criterion),
        }
    }

    /// For how many days more its street is closed with this row.
    fn longer(&self, stand: &Stand, row: u16, criterion: usize) -> u64 {
        let days = self.cost(row, criterion);
        match self.streets[row as usize] {
            0 => days,
            street => days.saturating_sub(stand.closed[street][criterion]),
        }
    }

    fn find(&self, mut stand: Stand, limits: &Limits) -> Option<Vec<u16>> {
        loop {
            let row = match self.look(&mut stand, limits) {
                Look::None => return None,
                Look::Tree(tree) => return Some(tree),
                Look::Try(row) => row,
            };
            stand.free.drop(row);
            if let Some(tree) = self.find(stand.clone(), limits) {
                return Some(tree);
            }
            self.take(&mut stand, row);
        }
    }

    /// Drops free rows that no tree inside the limits has, and tries the lightest trees.
    fn look(&self, stand: &mut Stand, limits: &Limits) -> Look {
        let k = self.network.k();
        if (0..k).any(|c| stand.paid[c] >= limits[c]) {
            return Look::None;
        }
        let parts = Parts(std::array::from_fn(|node| stand.parts.of(node as u8)));
        stand.parts = parts;
        for row in 0..self.network.m() as u16 {
            if stand.free.has(row) {
                let [a, b] = self.ends(row);
                let joined = parts.0[a as usize] == parts.0[b as usize];
                if joined || (0..k).any(|c| self.paid_with(stand, row, c) >= limits[c]) {
                    stand.free.drop(row);
                }
            }
        }

        // What each added criterion costs at the least. Any free rows do for a worst one by now.
        let mut least = stand.paid;
        for c in (0..k).filter(|&c| self.network.kinds[c] == 0) {
            let weight = |row| self.cost(row, c);
            let Some(lightest) = self.lightest(stand, &self.orders[c], weight) else {
                return Look::None;
            };
            least[c] += lightest.weight;
            if least[c] >= limits[c] {
                return Look::None;
            }
            if let Some(tree) = self.inside(stand, &lightest, limits) {
                return Look::Tree(tree);
            }
            self.drop_heavy(stand, &lightest, limits[c] - 1 - least[c], weight);
        }
        self.sums(stand, &least, limits)
    }

    /// Tries sums of the criteria that add up, each with a factor.
    fn sums(&self, stand: &mut Stand, least: &Limits, limits: &Limits) -> Look {
        let k = self.network.k();
        let summed: Vec<usize> = (0..k)
            .filter(|&c| self.network.kinds[c] != 1 && limits[c] != NO_LIMIT)
            .collect();
        for &c in &summed {
            if stand.factors[c] == 0.0 {
                stand.factors[c] = 1.0 / (limits[c] - least[c]) as f64;
            }
        }
        let mut last = None;
        for _ in 0..SUMS {
            let shares = self.shares(stand);
            let most = summed.iter().map(|&c| stand.factors[c]).fold(0.0, f64::max);
            let factor = |c: usize| (STEPS * stand.factors[c] / most).max(1.0) as u64;
            let factors: Vec<(usize, u64)> = summed.iter().map(|&c| (c, factor(c))).collect();
            let mut weights = vec![0; self.network.m()];
            let mut order = Vec::new();
            for row in (0..self.network.m() as u16).filter(|&row| stand.free.has(row)) {
                let part = |&(c, factor): &(usize, u64)| factor * shares[row as usize][c];
                weights[row as usize] = factors.iter().map(part).sum();
                order.push(row);
            }
            order.sort_by_key(|&row| weights[row as usize]);
            let weight = |row: u16| weights[row as usize];
            let Some(lightest) = self.lightest(stand, &order, weight) else {
                return Look::None;
            };
            let room =
                |&(c, factor): &(usize, u64)| factor * (limits[c] - 1 - stand.paid[c]) * PARTS;
            let room: u64 = factors.iter().map(room).sum();
            if lightest.weight > room {
                return Look::None;
            }
            if let Some(tree) = self.inside(stand, &lightest, limits) {
                return Look::Tree(tree);
            }
            self.drop_heavy(stand, &lightest, room - lightest.weight, weight);
            // A criterion with too much of the sum counts more the next time.
            for &c in &summed {
                let sum: u64 = lightest
                    .rows
                    .iter()
                    .map(|&row| shares[row as usize][c])
                    .sum();
                let over = sum > (limits[c] - 1 - stand.paid[c]) * PARTS;
                stand.factors[c] *= if over { 1.6 } else { 0.6 };
            }
            last = Some(lightest);
            if summed.len() < 2 {
                break;
            }
        }
        // A row that closes a street for long tells most, then one that costs much.
        let tells = |row: &&u16| {
            let of_kind = |kind| (0..k).filter(move |&c| self.network.kinds[c] == kind);
            let longer: u64 = of_kind(2).map(|c| self.longer(stand, **row, c)).sum();
            let added: u64 = of_kind(0).map(|c| self.cost(**row, c)).sum();
            (longer, added)
        };
        match last.unwrap().rows.iter().max_by_key(tells) {
            Some(&row) => Look::Try(row),
            None => Look::None,
        }
    }

    /// For each row the parts that it adds at the least to each criterion, if it is free. A street's days are shared by as
    /// many of its rows as a tree may still take of those that close it for longer.
    fn shares(&self, stand: &Stand) -> Vec<Limits> {
        let rows = || (0..self.network.m() as u16).filter(|&row| stand.free.has(row));
        let mut shares = vec![[0; 4]; self.network.m()];
        for c in 0..self.network.k() {
            if self.network.kinds[c] != 2 {
                rows().for_each(|row| shares[row as usize][c] = self.cost(row, c) * PARTS);
                continue;
            }
            let mut sharing = vec![0; self.named];
            let mut joined = vec![stand.parts; self.named];
            for row in rows().filter(|&row| self.longer(stand, row, c) > 0) {
                let street = self.streets[row as usize];
                sharing[street] += joined[street].join(self.ends(row)) as u64;
            }
            for row in rows() {
                let by = match self.streets[row as usize] {
                    0 => 1,
                    street => sharing[street].max(1),
                };
                shares[row as usize][c] = self.longer(stand, row, c) * PARTS / by;
            }
        }
        shares
    }

    /// The lightest free rows that join all parts, by an order in which weights do not fall; nothing if there are none.
    fn lightest(
        &self,
        stand: &Stand,
        order: &[u16],
        weight: impl Fn(u16) -> u64,
    ) -> Option<Lightest> {
        let width = self.network.width();
        let missing = width - stand.taken.len();
        let mut lightest = Lightest {
            rows: Vec::with_capacity(width),
            weight: 0,
            between: [[0; 33]; 33],
        };
        let mut parts = stand.parts.0;
        for &row in order {
            if lightest.rows.len() == missing {
                break;
            }
            let [a, b] = self.ends(row).map(|end| parts[end as usize]);
            if !stand.free.has(row) || a == b {
                continue;
            }
            lightest.rows.push(row);
            lightest.weight += weight(row);
            for u in 1..=self.network.n as usize {
                if parts[u] == a {
                    for v in 1..=self.network.n as usize {
                        if parts[v] == b {
                            lightest.between[u][v] = weight(row);
                            lightest.between[v][u] = weight(row);
                        }
                    }
                }
            }
            for part in &mut parts {
                if *part == a {
                    *part = b;
                }
            }
        }
        (lightest.rows.len() == missing).then_some(lightest)
    }

    /// Drops the free rows that would make the lightest rows heavier than there is room for.
    fn drop_heavy(
        &self,
        stand: &mut Stand,
        lightest: &Lightest,
        room: u64,
        weight: impl Fn(u16) -> u64,
    ) {
        for row in 0..self.network.m() as u16 {
            let [a, b] = self.ends(row).map(usize::from);
            if stand.free.has(row) && weight(row).saturating_sub(lightest.between[a][b]) > room {
                stand.free.drop(row);
            }
        }
    }

    /// The tree of the rows taken and these, if it is inside the limits.
    fn inside(&self, stand: &Stand, lightest: &Lightest, limits: &Limits) -> Option<Vec<u16>> {
        let rows = || lightest.rows.iter().copied();
        let cost = |c: usize| match self.network.kinds[c] {
            1 => rows().fold(stand.paid[c], |worst, row| worst.max(self.cost(row, c))),
            2 => {
                let mut closed = vec![0; self.named];
                let longer = |row: u16| {
                    let more = self.longer(stand, row, c);
                    let street = self.streets[row as usize];
                    let before = if street == 0 { 0 } else { closed[street] };
                    closed[street] = more.max(before);
                    more.saturating_sub(before)
                };
                stand.paid[c] + rows().map(longer).sum::<u64>()
            }
            _ => stand.paid[c] + rows().map(|row| self.cost(row, c)).sum::<u64>(),
        };
        let inside = (0..self.network.k()).all(|c| cost(c) < limits[c]);
        inside.then(|| [&stand.taken[..], &lightest.rows].concat())
    }

    /// The first path of the list with this vector, which some tree has and none goes below.
    fn first_path(&self, vector: &[u32]) -> Vec<u16> {
        let mut limits = [NO_LIMIT; 4];
        for (limit, &component) in limits.iter_mut().zip(vector) {
            *limit = component as u64 + 1;
        }
        let tree = self.tree_with(&[], self.open, &limits).unwrap();
        // A path with this vector, and how many of its steps are the first path's.
        let mut path = trees::minimal_path(self.network, &tree);
        for steps in 0..path.len() {
            for row in self.steps(&path[..steps]) {
                if row == path[steps] {
                    break;
                }
                let begun = [&path[..steps], &[row]].concat();
                if let Some(tree) = self.tree_beginning(&begun, &limits) {
                    path = trees::minimal_path(self.network, &tree);
                    assert!(path.starts_with(&begun));
                    break;
                }
            }
        }
        path
    }

    /// The rows by which a path may go on, in the order of their keys.
    fn steps(&self, path: &[u16]) -> Vec<u16> {
        let begun = self.begun(path);
        let not_barred = |row: &u16| self.open.has(*row) || self.musts.contains(row);
        let mut steps: Vec<((usize, u8), u16)> = (0..self.network.m() as u16)
            .filter(not_barred)
            .filter_map(|row| Some((begun.step(self.ends(row))?, row)))
            .filter(|(step, _)| *step > begun.last)
            .collect();
        steps.sort();
        steps.into_iter().map(|(_, row)| row).collect()
    }

    fn begun(&self, path: &[u16]) -> Begun {
        let mut begun = Begun {
            places: [None; 33],
            last: (0, 0),
        };
        begun.places[1] = Some(0);
        for (place, &row) in (1..).zip(path) {
            begun.last = begun.step(self.ends(row)).unwrap();
            begun.places[begun.last.1 as usize] = Some(place);
        }
        begun
    }

    /// A tree inside the limits whose minimal path begins so: each of its other rows is a step that may still come, or lies
    /// beyond what was entered.
    fn tree_beginning(&self, path: &[u16], limits: &Limits) -> Option<Vec<u16>> {
        let begun = self.begun(path);
        let may_come = |row: u16| {
            let ends = self.ends(row);
            let beyond = ends.iter().all(|&end| begun.places[end as usize].is_none());
            beyond || begun.step(ends).is_some_and(|step| step > begun.last)
        };
        let lost = |must: &u16| !path.contains(must) && !may_come(*must);
        if self.musts.iter().any(lost) {
            return None;
        }
        let mut free = self.open;
        for row in 0..self.network.m() as u16 {
            if !may_come(row) {
                free.drop(row);
            }
        }
        self.tree_with(path, free, limits)
    }
}

/// A path that is being grown.
struct Begun {
    /// for each node the place at which it was entered
    places: [Option<usize>; 33],
    /// from which place to which node the last step went
    last: (usize, u8),
}

impl Begun {
    /// From which place to which node a row leads; nothing if it is no step.
    fn step(&self, [a, b]: [u8; 2]) -> Option<(usize, u8)> {
        match (self.places[a as usize], self.places[b as usize]) {
            (Some(place), None) => Some((place, b)),
            (None, Some(place)) => Some((place, a)),
            _ => None,
        }
    }
}

/// What is known where a search stands: that there is no tree, a tree, or a row to leave out and then take in.
enum Look {
    None,
    Tree(Vec<u16>),
    Try(u16),
}
