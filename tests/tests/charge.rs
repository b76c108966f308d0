//! The connection charge of document 02, #109, as linked from the proved library: worked trees first, then seeded calls
//! against the independent code, every buffer compared whole.

use std::collections::BTreeMap;

use planner_tests::damage::damaged;
use planner_tests::draw;
use planner_tests::ffi::{self, SHORT_ANSWER};
use planner_tests::file::{network_a, Network, Row, BARRED, MOST, MUST, OPEN};
use planner_tests::lent::{places, Lent};
use planner_tests::operations;
use planner_tests::rng::Rng;

/// One call, with so many places of the buffer and of the answer.
struct Call<'a> {
    file: &'a [u8],
    rows: &'a [u16],
    criterion: u32,
    places: usize,
    answer_places: usize,
}

impl Call<'_> {
    /// Makes the call and holds it to the independent code; returns the code that it must have, with what is split.
    fn hold(&self, rng: &mut Rng) -> (u32, Option<operations::Charged>) {
        let mut buffer = Lent::new(self.places, || rng.word() as u32);
        let mut answer = Lent::new(self.answer_places, || rng.word() as u32);
        let code = ffi::charge(
            self.file,
            self.rows,
            self.criterion,
            buffer.part(),
            answer.part(),
        );
        let (expected, charged) = if self.answer_places < 2 {
            (SHORT_ANSWER, None)
        } else {
            match operations::charge(self.file, self.rows, self.criterion, self.places) {
                Ok(charged) => (0, Some(charged)),
                Err(number) => (number, None),
            }
        };
        let told = || {
            format!(
                "Charge of {:?} in criterion {}, {} and {} places, file {:02x?}",
                self.rows, self.criterion, self.places, self.answer_places, self.file
            )
        };
        assert_eq!(code, expected, "{}", told());
        match &charged {
            Some(split) => {
                buffer.expect(&split.charges, told);
                answer.expect(&[split.quotient, split.remainder], told);
            }
            None => {
                buffer.expect(&[], told);
                answer.expect(&[], told);
            }
        }
        (code, charged)
    }
}

/// A buffer of so many places with the charges, and the quotient and the remainder.
fn charge(
    network: &Network,
    rows: &[u16],
    criterion: u32,
    places: usize,
) -> Result<(Vec<u32>, [u32; 2]), u32> {
    let mut buffer = vec![0; places];
    let mut answer = [0; 2];
    match ffi::charge(&network.encode(), rows, criterion, &mut buffer, &mut answer) {
        0 => Ok((buffer, answer)),
        number => Err(number),
    }
}

#[test]
fn network_a_is_charged() {
    let a = network_a();
    assert_eq!(charge(&a, &[2, 0], 0, 2), Ok((vec![5, 4], [4, 1])));
    assert_eq!(charge(&a, &[0, 2], 0, 2), Ok((vec![5, 4], [4, 1])));
    assert_eq!(charge(&a, &[3, 2], 0, 2), Ok((vec![4, 4], [4, 0])));
    assert_eq!(charge(&a, &[0, 3], 0, 3), Ok((vec![4, 3, 0], [3, 1])));
}

/// 22 comes last: for a criterion of another kind, and for one that there is not, whatever its low bytes are.
#[test]
fn criteria_that_are_not_added() {
    let a = network_a();
    for criterion in [1, 2, 3, 4, 255, 256, 65_536, 1 << 24, 1 << 31, u32::MAX] {
        assert_eq!(charge(&a, &[2, 0], criterion, 2), Err(22), "{criterion}");
        assert_eq!(charge(&a, &[2, 0], criterion, 1), Err(11));
        assert_eq!(charge(&a, &[0, 1], criterion, 0), Err(10));
        assert_eq!(charge(&a, &[0, 4], criterion, 0), Err(9));
        assert_eq!(charge(&a, &[0], criterion, 0), Err(8));
    }
    let closing = Network {
        kinds: vec![2, 0],
        ..a.clone()
    };
    assert_eq!(charge(&closing, &[2, 0], 0, 2), Err(22));
    assert_eq!(charge(&closing, &[2, 0], 1, 2), Ok((vec![6, 6], [6, 0])));

    let b = a.with_states(&[BARRED, OPEN, OPEN, MUST]);
    assert_eq!(charge(&b, &[2, 1], 9, 0), Err(15));
    assert_eq!(charge(&b, &[0, 1], 9, 0), Err(10));
    assert_eq!(charge(&b, &[3, 1], 9, 0), Err(11));
    assert_eq!(charge(&b, &[3, 1], 9, 2), Err(22));
    assert_eq!(charge(&b, &[3, 1], 0, 2), Ok((vec![5, 4], [4, 1])));
}

/// A line of nodes whose rows cost so much.
fn line(costs: &[u32]) -> Network {
    let row = |(i, &cost): (usize, &u32)| Row::new([i as u8 + 1, i as u8 + 2], 0, vec![cost]);
    let n = costs.len() as u8 + 1;
    Network::new(n, vec![0], costs.iter().enumerate().map(row).collect())
}

/// The charges of the only tree of such a line.
fn line_charges(costs: &[u32]) -> (Vec<u32>, [u32; 2]) {
    let rows: Vec<u16> = (0..costs.len() as u16).collect();
    charge(&line(costs), &rows, 0, costs.len()).unwrap()
}

#[test]
fn totals_at_their_limits() {
    // one node bears all, and nothing is left over
    assert_eq!(line_charges(&[0]), (vec![0], [0, 0]));
    assert_eq!(line_charges(&[MOST]), (vec![MOST], [MOST, 0]));
    // a total of 0, and one under the number of nodes
    assert_eq!(line_charges(&[0; 31]), (vec![0; 31], [0, 0]));
    assert_eq!(line_charges(&[1, 0, 1, 0]), (vec![1, 1, 0, 0], [0, 2]));
    assert_eq!(line_charges(&[3, 3, 3, 2]), (vec![3, 3, 3, 2], [2, 3]));
    assert_eq!(line_charges(&[9, 0, 0, 0]), (vec![3, 2, 2, 2], [2, 1]));
    // the greatest total, and one less
    assert_eq!(line_charges(&[MOST; 31]), (vec![MOST; 31], [MOST, 0]));
    let mut costs = [MOST; 31];
    costs[7] -= 1;
    let mut charges = vec![MOST; 31];
    charges[30] -= 1;
    assert_eq!(line_charges(&costs), (charges, [MOST - 1, 30]));
}

/// How many seeded calls there are, and how many at the least must come of everything that is counted.
const CALLS: u64 = 30_000;
const ENOUGH: usize = 100;

/// A criterion of the network, mostly one that is added if there is one; else one that there is not, some with the low
/// bytes of one that is.
fn criterion(rng: &mut Rng, network: &Network) -> u32 {
    let k = network.k();
    let any = rng.between(0, k - 1) as u32;
    let above = rng.word() as u32 | 4;
    let added: Vec<u32> = (0..k as u32)
        .filter(|&c| network.kinds[c as usize] == 0)
        .collect();
    match rng.between(0, 5) {
        0 => rng.pick(&[
            k as u32,
            4,
            above,
            any + 256,
            any + 65_536,
            any | 1 << 24,
            any | 1 << 31,
            u32::MAX - 8,
            u32::MAX,
        ]),
        1 => any,
        _ if added.is_empty() => any,
        _ => rng.pick(&added),
    }
}

/// What of a call is counted.
fn shapes(
    network: &Network,
    call: &Call,
    code: u32,
    charged: &Option<operations::Charged>,
) -> Vec<&'static str> {
    let kind = network.kinds.get(call.criterion as usize).copied();
    let short = call.places < network.width();
    let mut shapes = vec![];
    let mut add = |shape, is: bool| shapes.extend(is.then_some(shape));
    if let Some(split) = charged {
        let nodes = network.width();
        let total: u32 = split.charges.iter().sum();
        add("a remainder", split.remainder > 0);
        add(
            "no remainder, several nodes",
            split.remainder == 0 && nodes > 1 && total > 0,
        );
        add("one node besides the plant", nodes == 1);
        add("all 32 nodes", nodes == 31);
        add("a total of 0", total == 0);
        add(
            "a total under the nodes",
            total > 0 && (total as usize) < nodes,
        );
        add("a total above 5,000,000", total > 5_000_000);
        add("places that are kept", call.places > nodes);
        add("states", network.version == 2);
    }
    add(
        "refused for a worst criterion",
        code == 22 && kind == Some(1),
    );
    add(
        "refused for a closing criterion",
        code == 22 && kind == Some(2),
    );
    add(
        "refused for a criterion of k or more",
        code == 22 && kind.is_none(),
    );
    add(
        "refused for the last criterion",
        code == 22 && call.criterion == u32::MAX,
    );
    add("11 before 22", code == 11 && kind != Some(0));
    for (before, shape) in [
        (8, "8 before 11 and 22"),
        (9, "9 before 11 and 22"),
        (10, "10 before 11 and 22"),
        (15, "15 before 11 and 22"),
    ] {
        add(shape, code == before && short && kind != Some(0));
    }
    shapes
}

#[test]
fn seeded_calls() {
    let mut counts: BTreeMap<&'static str, usize> = BTreeMap::new();
    let mut codes = [0; 256];
    for seed in 0..CALLS {
        let rng = &mut Rng::new(seed);
        let (nodes, rows) = match rng.between(0, 5) {
            0 => (2, 5),
            _ => draw::sizes(rng),
        };
        let mut network = match rng.between(0, 5) {
            0 => draw::network_with_streets(rng, nodes, rows),
            1 | 2 => draw::network(rng, nodes, rows),
            _ => draw::network_with_states(rng, nodes, rows),
        };
        if !rng.once_in(3) {
            let one = rng.between(0, network.k() - 1);
            network.kinds[one] = 0;
        }
        let file = match rng.between(0, 3) {
            0 => damaged(&network, rng),
            _ => network.encode(),
        };
        // a tree if there is one, or rows as somebody may draw them
        let drawn = match rng.once_in(2) {
            true => draw::layout(rng, &network),
            false => draw::rows(rng, &network),
        };
        let call = Call {
            file: &file,
            rows: &drawn,
            criterion: criterion(rng, &network),
            places: places(network.width(), rng),
            answer_places: match rng.once_in(16) {
                true => rng.between(0, 1),
                false => rng.pick(&[2, 2, 3, 7]),
            },
        };
        let (code, charged) = call.hold(rng);
        codes[code as usize] += 1;
        if file == network.encode() {
            for shape in shapes(&network, &call, code, &charged) {
                *counts.entry(shape).or_default() += 1;
            }
        }
        if let Some(split) = charged {
            sums_to_the_cost(&call, &split.charges);
        }
    }
    println!("{CALLS} calls: {counts:?}");
    println!("Charge by code, 0 to 22: {:?}", &codes[..23]);
    println!("Charge with a short answer: {}", codes[255]);
    for code in [0, 1, 2, 3, 4, 5, 6, 7, 14, 8, 9, 10, 15, 11, 22, 255] {
        assert!(codes[code] >= ENOUGH, "too few: {code}");
    }
    // every shape came up, and often
    assert_eq!(counts.len(), 18);
    assert!(counts.values().all(|&count| count >= ENOUGH));
}

/// The charges come to what Cost gives of the same rows in the criterion.
fn sums_to_the_cost(call: &Call, charges: &[u32]) {
    let mut vector = [0; 4];
    assert_eq!(ffi::cost(call.file, call.rows, &mut vector), 0);
    assert_eq!(charges.iter().sum::<u32>(), vector[call.criterion as usize]);
}
