//! A plain depth-first walk in the order of the list, over adjacency lists sorted by node and row, without barred rows: what
//! the library is measured against, and held to where subsets of rows would take too long. It is recursive, allocates
//! nothing and does not look ahead, so it also grows paths that end nowhere, and whole trees that lack a must row.

use crate::file::{Network, BARRED, MUST};

pub struct Graph {
    /// How many rows a tree has.
    pub width: usize,
    /// For each node its neighbours, each with the row that leads there.
    neighbours: Vec<Vec<(u8, u16)>>,
    musts: Vec<u16>,
}

impl Graph {
    pub fn new(network: &Network) -> Graph {
        let mut neighbours = vec![Vec::new(); network.n as usize + 1];
        let mut musts = Vec::new();
        for (row, of) in (0..).zip(&network.rows) {
            let [a, b] = of.ends;
            if of.state != BARRED {
                neighbours[a as usize].push((b, row));
                neighbours[b as usize].push((a, row));
            }
            if of.state == MUST {
                musts.push(row);
            }
        }
        neighbours.iter_mut().for_each(|list| list.sort());
        Graph {
            width: network.width(),
            neighbours,
            musts,
        }
    }

    /// Shows the minimal path of each spanning tree, in the order of the list.
    pub fn walk(&self, show: &mut impl FnMut(&[u16])) {
        let mut grown = Grown {
            rows: [0; 31],
            nodes: [1; 32],
            entered: 1 << 1,
        };
        self.grow(&mut grown, 0, 0, 0, show);
    }

    /// Grows a path of so many steps on, by steps from this place on; at this place, by those from this neighbour on.
    fn grow(
        &self,
        grown: &mut Grown,
        steps: usize,
        first_place: usize,
        first_neighbour: usize,
        show: &mut impl FnMut(&[u16]),
    ) {
        if steps == self.width {
            let rows = &grown.rows[..steps];
            if self.musts.iter().all(|must| rows.contains(must)) {
                show(rows);
            }
            return;
        }
        let mut from = first_neighbour;
        for place in first_place..=steps {
            let list = &self.neighbours[grown.nodes[place] as usize];
            for (at, &(node, row)) in list.iter().enumerate().skip(from) {
                if grown.entered >> node & 1 == 0 {
                    grown.rows[steps] = row;
                    grown.nodes[steps + 1] = node;
                    grown.entered |= 1 << node;
                    self.grow(grown, steps + 1, place, at + 1, show);
                    grown.entered &= !(1 << node);
                }
            }
            from = 0;
        }
    }

    /// Shows those behind a tree of the list, as long as each is to be followed by another.
    pub fn walk_behind(&self, tree: &[u16], show: &mut impl FnMut(&[u16]) -> bool) {
        let mut grown = Grown {
            rows: [0; 31],
            nodes: [1; 32],
            entered: 1 << 1,
        };
        self.resume(&mut grown, tree, 0, 0, show);
    }

    /// Goes along the tree from a path of its first steps on, the last of them from this place, to grow what is behind it.
    fn resume(
        &self,
        grown: &mut Grown,
        tree: &[u16],
        steps: usize,
        last_place: usize,
        show: &mut impl FnMut(&[u16]) -> bool,
    ) -> bool {
        let Some(&row) = tree.get(steps) else {
            return true;
        };
        let at = |place: usize| {
            let list = &self.neighbours[grown.nodes[place] as usize];
            list.iter().position(|&(_, by)| by == row)
        };
        let (place, at) = (last_place..=steps)
            .find_map(|place| at(place).map(|at| (place, at)))
            .expect("a step of a minimal path");
        let node = self.neighbours[grown.nodes[place] as usize][at].0;
        grown.rows[steps] = row;
        grown.nodes[steps + 1] = node;
        grown.entered |= 1 << node;
        let goes_on = self.resume(grown, tree, steps + 1, place, show);
        grown.entered &= !(1 << node);
        goes_on && self.grow_until(grown, steps, place, at + 1, show)
    }

    /// As `grow`, but false as soon as no other tree is to follow. It is a function of its own, so that the whole walk, which
    /// the library's lists are measured against, has nothing to ask.
    fn grow_until(
        &self,
        grown: &mut Grown,
        steps: usize,
        first_place: usize,
        first_neighbour: usize,
        show: &mut impl FnMut(&[u16]) -> bool,
    ) -> bool {
        if steps == self.width {
            let rows = &grown.rows[..steps];
            return !self.musts.iter().all(|must| rows.contains(must)) || show(rows);
        }
        let mut from = first_neighbour;
        for place in first_place..=steps {
            let list = &self.neighbours[grown.nodes[place] as usize];
            for (at, &(node, row)) in list.iter().enumerate().skip(from) {
                if grown.entered >> node & 1 == 0 {
                    grown.rows[steps] = row;
                    grown.nodes[steps + 1] = node;
                    grown.entered |= 1 << node;
                    let goes_on = self.grow_until(grown, steps + 1, place, at + 1, show);
                    grown.entered &= !(1 << node);
                    if !goes_on {
                        return false;
                    }
                }
            }
            from = 0;
        }
        true
    }
}

/// A half-grown path: its rows, the nodes by the place at which they were entered, and the same nodes as bits.
struct Grown {
    rows: [u16; 31],
    nodes: [u8; 32],
    entered: u64,
}
