//! Front, as linked from the proved library, held to documents 01 and 02 and to the front by subsets of rows, each
//! witness to the first tree of the list that has its vector: worked networks first, then seeded ones with tables of any
//! length, both tables compared whole.

use std::collections::BTreeSet;

use planner_tests::costs::{self, Vector};
use planner_tests::damage::damaged;
use planner_tests::draw;
use planner_tests::ffi::{self, SHORT_ANSWER};
use planner_tests::file::{network_a, Network, Row, BARRED, MOST, MUST, OPEN};
use planner_tests::lent::Lent;
use planner_tests::operations::{self, Listed};
use planner_tests::rng::Rng;
use planner_tests::trees;

/// One call: the file, tables and an answer of so many places. Returns the code that it must have.
fn hold(
    file: &[u8],
    read: &Result<Listed, u32>,
    [cost_places, witness_places, answer_places]: [usize; 3],
    rng: &mut Rng,
) -> u32 {
    let mut costs = Lent::new(cost_places, || rng.word() as u32);
    let mut witnesses = Lent::new(witness_places, || rng.word() as u16);
    let mut answer = Lent::new(answer_places, || rng.word() as u32);
    let code = ffi::front(file, costs.part(), witnesses.part(), answer.part());
    let (expected, written) = match operations::front(read, cost_places, witness_places) {
        _ if answer_places < 2 => (SHORT_ANSWER, None),
        Ok(fronted) => (0, Some(fronted)),
        Err(number) => (number, None),
    };
    let told = || format!("Front of {cost_places} and {witness_places} places, file {file:02x?}");
    assert_eq!(code, expected, "{}", told());
    let (counted, vectors, trees) = match written {
        None => (vec![], vec![], vec![]),
        Some(fronted) => (
            vec![fronted.vectors.len() as u32, fronted.whole as u32],
            fronted.vectors.concat(),
            fronted.witnesses.concat(),
        ),
    };
    answer.expect(&counted, told);
    costs.expect(&vectors, told);
    witnesses.expect(&trees, told);
    expected
}

/// Both tables' rows where each has room for so many, and whether they are marked as the whole front.
fn front_rows(network: &Network, capacity: usize) -> (Vec<Vector>, Vec<Vec<u16>>, bool) {
    let mut costs = vec![0; capacity * network.k()];
    let mut witnesses = vec![0; capacity * network.width()];
    let mut answer = [0; 2];
    let code = ffi::front(&network.encode(), &mut costs, &mut witnesses, &mut answer);
    assert_eq!(code, 0);
    let count = answer[0] as usize;
    let vectors = costs.chunks(network.k()).take(count);
    let trees = witnesses.chunks(network.width()).take(count);
    (
        vectors.map(<[u32]>::to_vec).collect(),
        trees.map(<[u16]>::to_vec).collect(),
        answer[1] == 1,
    )
}

/// The front through tables of so many rows, and whether it is marked as whole.
fn front(network: &Network, capacity: usize) -> (Vec<Vector>, bool) {
    let (vectors, _, whole) = front_rows(network, capacity);
    (vectors, whole)
}

#[test]
fn network_a_of_document_01() {
    let a = network_a();
    let whole = vec![vec![7, 7], vec![8, 6], vec![11, 5]];
    assert_eq!(front(&a, 1), (whole[..1].to_vec(), false));
    assert_eq!(front(&a, 2), (whole[..2].to_vec(), false));
    assert_eq!(front(&a, 3), (whole.clone(), true));
    assert_eq!(front(&a, 512), (whole, true));
    assert_eq!(front_rows(&a, 512).1, [[0, 3], [2, 3], [1, 2]]);
}

/// The front is over the trees that keep the states: a vector may join it whose dominating trees are left out.
#[test]
fn network_a_with_states() {
    for (states, whole) in [
        (
            [OPEN, OPEN, OPEN, OPEN],
            vec![vec![7, 7], vec![8, 6], vec![11, 5]],
        ),
        ([BARRED, OPEN, OPEN, OPEN], vec![vec![8, 6], vec![11, 5]]),
        ([BARRED, OPEN, OPEN, MUST], vec![vec![8, 6]]),
        ([OPEN, MUST, OPEN, OPEN], vec![vec![9, 6], vec![11, 5]]),
        ([OPEN, MUST, MUST, OPEN], vec![vec![11, 5]]),
        ([MUST, OPEN, OPEN, BARRED], vec![vec![9, 7]]),
    ] {
        let network = network_a().with_states(&states);
        assert_eq!(front(&network, 1), (whole[..1].to_vec(), whole.len() == 1));
        assert_eq!(front(&network, 512), (whole, true));
    }
}

/// A network of rows with a length, which is added, and a risk, of which the worst counts.
fn lengths_and_risks(n: u8, rows: &[[u32; 4]]) -> Network {
    let row =
        |&[a, b, length, risk]: &[u32; 4]| Row::new([a as u8, b as u8], 0, vec![length, risk]);
    Network::new(n, vec![0, 1], rows.iter().map(row).collect())
}

/// Document 000, table 2: its first worked network.
fn first_of_document_000() -> Network {
    lengths_and_risks(
        9,
        &[
            [1, 2, 4, 2],
            [1, 3, 8, 2],
            [2, 3, 11, 6],
            [2, 4, 8, 2],
            [3, 5, 7, 6],
            [3, 6, 1, 2],
            [4, 5, 2, 6],
            [4, 7, 4, 4],
            [4, 8, 7, 8],
            [5, 6, 6, 4],
            [6, 7, 2, 4],
            [7, 8, 14, 2],
            [7, 9, 10, 4],
            [8, 9, 9, 8],
        ],
    )
}

/// Document 000, table 4: its second worked network.
fn second_of_document_000() -> Network {
    lengths_and_risks(
        5,
        &[
            [1, 2, 7, 10],
            [1, 3, 7, 6],
            [1, 4, 9, 4],
            [1, 5, 15, 8],
            [2, 3, 15, 4],
            [2, 4, 7, 8],
            [2, 5, 9, 6],
            [3, 4, 7, 8],
            [3, 5, 9, 4],
            [4, 5, 9, 6],
        ],
    )
}

/// Document 000 gives 662 trees, 58 different vectors and a front of three for its first network, with two trees for
/// each of the three; 125 trees for its second, of which 12 are shortest and three of these have the least risk, 8.
#[test]
fn worked_networks_of_document_000() {
    let first = first_of_document_000();
    let list = trees::list(&first);
    let vectors: Vec<Vector> = list.iter().map(|t| costs::vector(&first, t)).collect();
    let different: BTreeSet<&Vector> = vectors.iter().collect();
    let whole = vec![vec![37, 8], vec![45, 6], vec![49, 4]];
    assert_eq!((list.len(), different.len()), (662, 58));
    for vector in &whole {
        assert_eq!(vectors.iter().filter(|&v| v == vector).count(), 2);
    }
    assert_eq!(front(&first, 64), (whole.clone(), true));
    assert_eq!(front(&first, 3), (whole.clone(), true));
    assert_eq!(front(&first, 2), (whole[..2].to_vec(), false));

    let second = second_of_document_000();
    let list = trees::list(&second);
    let vectors: Vec<Vector> = list.iter().map(|t| costs::vector(&second, t)).collect();
    let shortest = vectors.iter().map(|v| v[0]).min().unwrap();
    assert_eq!(list.len(), 125);
    assert_eq!(vectors.iter().filter(|v| v[0] == shortest).count(), 12);
    assert_eq!(vectors.iter().filter(|v| **v == [shortest, 8]).count(), 3);
    let (whole, mark) = front(&second, 64);
    assert_eq!(whole[0], [shortest, 8]);
    assert_eq!((whole, mark), (costs::front(vectors), true));
}

/// Two rows for each step of a line, the one dear in the first criterion, the other in the second: no tree dominates
/// another, and each vector differs.
fn all_undominated(steps: u8) -> Network {
    let row = |a: u8, costs: [u32; 2]| Row::new([a, a + 1], 0, costs.to_vec());
    let rows = (1..=steps).flat_map(|a| [row(a, [1 << a, 0]), row(a, [0, 1 << a])]);
    Network::new(steps + 1, vec![0, 2], rows.collect())
}

/// Fronts of 2 to the power of the steps, longer than any table that the library may keep of its own.
#[test]
fn long_fronts() {
    for steps in [1, 4, 6, 7, 9] {
        let network = all_undominated(steps);
        let size = 1usize << steps;
        let vectors: Vec<Vector> = (0..size as u32)
            .map(|i| vec![2 * i, 2 * (size as u32 - 1 - i)])
            .collect();
        for capacity in [1, size / 3 + 1, size - 1, size, size + 1] {
            let fitting = capacity.min(size);
            let expected = (vectors[..fitting].to_vec(), size <= capacity);
            assert_eq!(front(&network, capacity), expected);
        }
    }
}

/// A vector that the tables have no room for when it comes, and that belongs to the finished front: the trees that fill
/// them at first are all dominated by the last one.
#[test]
fn a_full_table_is_not_a_cut_front() {
    let mut network = all_undominated(5);
    for row in &mut network.rows {
        row.costs.iter_mut().for_each(|cost| *cost += 100);
    }
    for a in 1..=5 {
        network.rows.push(Row::new([a, a + 1], 0, vec![1, 1]));
    }
    for capacity in 1..5 {
        assert_eq!(front(&network, capacity), (vec![vec![5, 5]], true));
    }
}

/// Each row twice, one behind the other.
fn doubled(network: &Network) -> Network {
    let mut twice = network.clone();
    twice.rows = network
        .rows
        .iter()
        .flat_map(|row| [row.clone(), row.clone()])
        .collect();
    twice
}

/// These trees in the doubled network, by the first row of each two or by the second.
fn by_side(trees: &[Vec<u16>], side: u16) -> Vec<Vec<u16>> {
    let tree = |rows: &Vec<u16>| rows.iter().map(|row| 2 * row + side).collect();
    trees.iter().map(tree).collect()
}

/// Document 02, #101: the first tree of the list that has the vector stands beside it, also where Front takes several
/// passes. In a doubled network it has the first row of each two, and the second where the first is barred.
#[test]
fn the_first_of_trees_of_equal_cost() {
    let networks = [
        network_a(),
        first_of_document_000(),
        all_undominated(4),
        all_undominated(7),
    ];
    for network in networks {
        let (vectors, trees, _) = front_rows(&network, 512);
        let size = vectors.len();
        let twice = doubled(&network);
        for capacity in [1, size / 2 + 1, size, size + 1] {
            let count = size.min(capacity);
            let first = by_side(&trees[..count], 0);
            let expected = (vectors[..count].to_vec(), first, size <= capacity);
            assert_eq!(front_rows(&twice, capacity), expected);
        }
        let barred = twice.with_states(&[BARRED, OPEN].repeat(network.m()));
        let expected = (vectors, by_side(&trees, 1), true);
        assert_eq!(front_rows(&barred, 512), expected);
    }
}

/// How many seeded networks there are, and how many at the least must come of everything that is counted.
const NETWORKS: u64 = 10_000;
const ENOUGH: usize = 300;

/// Costs that trade off against each other, so that many vectors stay: what one criterion gains another loses.
fn spread_costs(network: &mut Network, rng: &mut Rng) {
    let most = rng.pick(&[20, 500, MOST as usize]);
    for row in &mut network.rows {
        let first = rng.between(0, most);
        for (i, cost) in row.costs.iter_mut().enumerate() {
            let trade = if i % 2 == 0 { first } else { most - first };
            *cost = (trade + rng.between(0, most / 8)).min(MOST as usize) as u32;
        }
    }
}

/// Capacities from one row to beyond the front, the two tables' own, with places left over; or too short for a row.
fn tables(read: &Listed, rng: &mut Rng) -> [usize; 3] {
    let (k, width) = (read.network.k(), read.network.width());
    let size = read.front.len();
    let capacity = match rng.between(0, 4) {
        0 => 1,
        1 => rng.between(1, size + 2),
        2 => size.max(1),
        3 => size.max(2) - 1,
        _ => size + rng.between(1, 70),
    };
    let mut costs = capacity * k + rng.between(0, k - 1);
    let mut witnesses = capacity * width + rng.between(0, width - 1);
    match rng.between(0, 7) {
        0 => costs = rng.between(0, k),
        1 => witnesses = rng.between(0, width),
        2 => costs += k * rng.between(1, 9),
        3 => witnesses += width * rng.between(1, 9),
        _ => {}
    }
    [costs, witnesses, rng.pick(&[0, 1, 2, 2, 2, 2, 2, 2, 3, 5])]
}

/// Whether a vector of the front is that of several trees, so that the witness is one among them.
fn several_trees(read: &Listed) -> bool {
    let of_front = |tree: &&Vec<u16>| read.front.contains(&costs::vector(&read.network, tree));
    read.list.iter().filter(of_front).count() > read.front.len()
}

/// Front over networks that are made so.
fn seeded(make: impl Fn(&mut Rng) -> Network) {
    let mut of_code = [0; 256];
    let mut whole = 0;
    let mut cut = 0;
    let mut single = 0;
    let mut several = 0;
    let mut longest = 0;
    for seed in 0..NETWORKS {
        let rng = &mut Rng::new(seed);
        let mut network = make(rng);
        if rng.once_in(2) {
            spread_costs(&mut network, rng);
        }
        let file = network.encode();
        let read = Listed::read(&file);
        let size = read.as_ref().unwrap().front.len();
        single += (size == 1) as usize;
        several += several_trees(read.as_ref().unwrap()) as usize;
        longest = longest.max(size);
        for _ in 0..4 {
            let tables = tables(read.as_ref().unwrap(), rng);
            let code = hold(&file, &read, tables, rng);
            of_code[code as usize] += 1;
            if code == 0 {
                let mark = operations::front(&read, tables[0], tables[1]);
                match mark.map(|fronted| fronted.whole) {
                    Ok(true) => whole += 1,
                    _ => cut += 1,
                }
            }
        }
    }
    println!("{NETWORKS} networks, the longest front {longest}");
    println!("{single} fronts of one vector, {several} with a vector of several trees");
    println!("calls by code, 0 to 12: {:?}", &of_code[..13]);
    println!("{whole} whole, {cut} cut, {} short answers", of_code[255]);
    for code in [0, 11, 12, 255] {
        assert!(of_code[code] >= ENOUGH, "too few: {code}");
    }
    assert!(whole >= ENOUGH && cut >= ENOUGH && single >= ENOUGH && several >= ENOUGH);
}

#[test]
fn seeded_networks() {
    seeded(|rng| draw::network(rng, 7, 12));
}

#[test]
fn seeded_networks_with_states() {
    seeded(|rng| draw::network_with_states(rng, 7, 12));
}

#[test]
fn seeded_networks_with_streets() {
    seeded(|rng| draw::network_with_streets(rng, 7, 12));
}

/// Many criteria and costs of any size: fronts of some hundred vectors, which grow and shrink on the way.
#[test]
fn seeded_networks_with_long_fronts() {
    let mut longest = 0;
    let mut over_64 = 0;
    for seed in 0..300 {
        let rng = &mut Rng::new(seed);
        let (n, m) = (rng.between(5, 7), rng.between(13, 15));
        let mut network = Network::random(rng, n, m, 4);
        network.kinds = vec![0, 2, 0, rng.between(0, 2) as u8];
        let file = network.encode();
        let read = Listed::read(&file);
        let size = read.as_ref().unwrap().front.len();
        over_64 += (size > 64) as usize;
        longest = longest.max(size);
        for rows in [1, rng.between(1, 80), 64, 65, size.max(2) - 1, size + 1] {
            hold(&file, &read, [4 * rows, (n - 1) * rows, 2], rng);
        }
    }
    println!("{over_64} fronts of more than 64 vectors, the longest {longest}");
    assert!(over_64 >= 50);
}

/// Damaged files of networks that are made so; each of these checks must refuse many.
fn damaged_files(make: impl Fn(&mut Rng) -> Network, codes: &[usize]) {
    let mut of_code = [0; 256];
    for seed in 0..20_000 {
        let rng = &mut Rng::new(seed);
        let network = make(rng);
        let file = damaged(&network, rng);
        let read = Listed::read(&file);
        let tables = [
            rng.between(0, 12),
            rng.between(0, 12),
            rng.pick(&[0, 1, 2, 2, 2, 2, 2, 3]),
        ];
        of_code[hold(&file, &read, tables, rng) as usize] += 1;
    }
    println!("calls by code, 0 to 14: {:?}", &of_code[..15]);
    assert!(codes.iter().all(|&code| of_code[code] >= ENOUGH));
}

#[test]
fn damaged_files_of_version_1() {
    damaged_files(|rng| draw::network(rng, 5, 8), &[1, 2, 3, 4, 5, 6, 7]);
}

#[test]
fn damaged_files_of_version_2() {
    let make = |rng: &mut Rng| draw::network_with_states(rng, 5, 8);
    damaged_files(make, &[1, 2, 3, 4, 5, 6, 7, 14]);
}
