//! The same front from shuffled rows (document 02, #113), of the proved library: files whose rows are a rearrangement of each
//! other, all else equal. Seeded networks and shuffles: the fronts are compared whole, with tables of other lengths and the
//! same capacity; the lists, as sets of trees once rows are renamed; and in them each two trees, which may stand in another
//! sequence only where their paths part first at parallel rows, as may the witnesses of a vector. Keys say where they part.

use std::collections::BTreeMap;

use planner_tests::choice::is_searched;
use planner_tests::costs::Vector;
use planner_tests::draw;
use planner_tests::ffi;
use planner_tests::file::{network_a, Network, BARRED, MUST, OPEN};
use planner_tests::lent::Lent;
use planner_tests::pages;
use planner_tests::rng::Rng;
use planner_tests::seen::Seen;
use planner_tests::study;
use planner_tests::trees::{self, Key};

/// The same network with its rows in another sequence: row r is the other's row of the number at place r.
fn shuffled(network: &Network, numbers: &[u16]) -> Network {
    let mut other = network.clone();
    other.rows = numbers
        .iter()
        .map(|&row| network.rows[row as usize].clone())
        .collect();
    other
}

/// A tree of the shuffled network by the row numbers of the other.
fn renamed(numbers: &[u16], tree: &[u16]) -> Vec<u16> {
    tree.iter().map(|&row| numbers[row as usize]).collect()
}

/// The numbers of m rows in any sequence, in the opposite one, or with two exchanged.
fn numbers(rng: &mut Rng, m: usize) -> Vec<u16> {
    let mut numbers: Vec<u16> = (0..m as u16).collect();
    match rng.between(0, 5) {
        0 => numbers.reverse(),
        1 if m > 1 => numbers.swap(rng.between(0, m - 2), m - 1),
        _ => rng.shuffle(&mut numbers),
    }
    numbers
}

/// Whether two different paths part first at parallel rows: the first keys that differ have one place and one node.
fn at_parallel_rows(one: &[Key], other: &[Key]) -> bool {
    let differ = one.iter().zip(other).find(|(a, b)| a != b);
    let ((place, node, _), (other_place, other_node, _)) = differ.unwrap();
    place == other_place && node == other_node
}

/// The same by the rows alone, as the theorem says it: the first rows that differ join the same two nodes.
fn at_rows_of_one_pair(network: &Network, one: &[u16], other: &[u16]) -> bool {
    let (a, b) = one.iter().zip(other).find(|(a, b)| a != b).unwrap();
    let [[a, b], ends] = [a, b].map(|&row| network.rows[row as usize].ends);
    [a, b] == ends || [b, a] == ends
}

/// What Front comes to: its code and, with code 0, the rows of both tables and the mark.
struct Fronted {
    code: u32,
    vectors: Vec<Vector>,
    witnesses: Vec<Vec<u16>>,
    whole: bool,
}

/// One call with tables of so many places, in which it writes the rows that it counts and nothing else.
fn front(network: &Network, places: [usize; 2], rng: &mut Rng) -> Fronted {
    let mut costs = Lent::new(places[0], || rng.word() as u32);
    let mut witnesses = Lent::new(places[1], || rng.word() as u16);
    let mut answer = [0; 2];
    let file = network.encode();
    let code = ffi::front(&file, costs.part(), witnesses.part(), &mut answer);
    let [count, whole] = answer;
    let vectors = costs.part()[..count as usize * network.k()].to_vec();
    let trees = witnesses.part()[..count as usize * network.width()].to_vec();
    let told = || format!("Front of {places:?} places, {network:?}");
    costs.expect(&vectors, told);
    witnesses.expect(&trees, told);
    Fronted {
        code,
        vectors: vectors.chunks(network.k()).map(<[u32]>::to_vec).collect(),
        witnesses: trees.chunks(network.width()).map(<[u16]>::to_vec).collect(),
        whole: whole == 1,
    }
}

/// Places for so many rows, often with some left over, or with more rows in one of the tables.
fn places(network: &Network, capacity: usize, rng: &mut Rng) -> [usize; 2] {
    let [k, width] = [network.k(), network.width()];
    let mut places = [k, width].map(|wide| capacity * wide + rng.between(0, wide - 1));
    match rng.between(0, 2) {
        0 => places[0] += k * rng.between(1, 9),
        1 => places[1] += width * rng.between(1, 9),
        _ => {}
    }
    places
}

/// A network, and the same with its rows shuffled by these numbers.
struct Pair {
    network: Network,
    other: Network,
    numbers: Vec<u16>,
}

impl Pair {
    fn new(network: Network, numbers: Vec<u16>) -> Pair {
        let other = shuffled(&network, &numbers);
        Pair {
            network,
            other,
            numbers,
        }
    }

    /// Front of both at this capacity: code, count, mark and vectors the same, and each witness the same tree, or another
    /// whose path parts from it first at parallel rows. Returns what the first comes to, and whether a witness differs.
    fn fronts(&self, capacity: usize, rng: &mut Rng) -> (Fronted, bool) {
        let [of, to] = [&self.network, &self.other].map(|network| {
            let places = places(network, capacity, rng);
            front(network, places, rng)
        });
        let told = || format!("{:?} by {:?}", self.network, self.numbers);
        assert_eq!(of.code, to.code, "{}", told());
        assert_eq!(of.vectors, to.vectors, "{}", told());
        assert_eq!(of.whole, to.whole, "{}", told());
        assert_eq!(of.witnesses.len(), to.witnesses.len());
        let mut another = false;
        for (tree, witness) in of.witnesses.iter().zip(&to.witnesses) {
            let witness = renamed(&self.numbers, witness);
            if *tree != witness {
                let keys = |tree: &[u16]| trees::keys(&self.network, tree).unwrap();
                assert!(at_parallel_rows(&keys(tree), &keys(&witness)), "{}", told());
                another = true;
            }
        }
        (of, another)
    }

    /// Both lists: the same set of trees once rows are renamed, and each two trees in the same sequence unless they part first at
    /// parallel rows. Returns how many pairs of trees there are.
    fn lists(&self, rng: &mut Rng, seen: &mut Seen) -> usize {
        let [of, to] = [&self.network, &self.other].map(|network| {
            let mut list = Vec::new();
            pages::each(network, rng.between(1, 40), &mut |page| {
                list.extend(page.chunks(network.width()).map(<[u16]>::to_vec))
            });
            list
        });
        let told = || format!("{:?} by {:?}", self.network, self.numbers);
        let standing: BTreeMap<&Vec<u16>, usize> = of.iter().zip(0..).collect();
        let stands = |tree: &Vec<u16>| standing.get(&renamed(&self.numbers, tree)).copied();
        let places: Option<Vec<usize>> = to.iter().map(stands).collect();
        let places = places.unwrap_or_else(|| panic!("a tree that is not listed: {}", told()));
        let mut every = places.clone();
        every.sort();
        assert!(every.into_iter().eq(0..of.len()), "{}", told());

        let keys: Vec<Vec<Key>> = to
            .iter()
            .map(|tree| trees::keys(&self.other, tree).unwrap())
            .collect();
        let [mut kept, mut turned, mut parted] = [0; 3];
        for later in 1..to.len() {
            for earlier in 0..later {
                let parallel = at_parallel_rows(&keys[earlier], &keys[later]);
                let pair = at_rows_of_one_pair(&self.other, &to[earlier], &to[later]);
                assert_eq!(parallel, pair, "{}", told());
                let same = places[earlier] < places[later];
                assert!(same || parallel, "{}", told());
                kept += (parallel && same) as usize;
                turned += !same as usize;
                parted += !parallel as usize;
            }
        }
        seen.note("lists with trees in another sequence", turned > 0);
        seen.note("lists with trees in the same, at parallel rows", kept > 0);
        seen.note(
            "lists with trees that part at a place or a node",
            parted > 0,
        );
        kept + turned + parted
    }
}

/// Each row once more, its ends often the other way round; some of the new rows cost the same.
fn doubled(rng: &mut Rng, network: Network) -> Network {
    let mut twice = network.clone();
    for mut row in network.rows {
        rng.shuffle(&mut row.ends);
        if rng.once_in(3) {
            row.costs.iter_mut().for_each(|cost| *cost /= 2);
        }
        twice.rows.push(row);
    }
    twice
}

/// How many seeded networks with a tree there are, and how many at the least must come of everything that is counted.
const NETWORKS: usize = 5_000;
const ENOUGH: usize = 300;

#[test]
fn seeded_networks() {
    let mut seen = Seen::default();
    let [mut with_a_tree, mut longest, mut pairs] = [0; 3];
    for seed in 0.. {
        if with_a_tree == NETWORKS {
            break;
        }
        let rng = &mut Rng::new(seed);
        let network = match seed % 5 {
            0 => draw::network(rng, 7, 13),
            1 => draw::network_with_states(rng, 7, 13),
            2 => draw::network_with_streets(rng, 7, 13),
            3 => draw::network_with_few_states(rng, 7, 13),
            _ => {
                let half = draw::network_with_states(rng, 5, 6);
                doubled(rng, half)
            }
        };
        let numbers = numbers(rng, network.m());
        let pair = Pair::new(network, numbers);
        let has = |state| pair.network.rows.iter().any(|row| row.state == state);
        let whole = front(&pair.network, [4 * 512, 32 * 512], rng);
        let size = whole.vectors.len();
        for capacity in [0, 1, rng.between(0, size + 2), size, size + 1] {
            let (of, another) = pair.fronts(capacity, rng);
            let several = of.vectors.len() > 1;
            seen.note("fronts with another tree as a witness", another);
            seen.note("fronts of several vectors, whole", of.whole && several);
            seen.note("fronts that are cut", of.code == 0 && !of.whole);
            seen.note("fronts refused by 11", of.code == 11);
        }
        seen.note("without a tree", whole.code == 12);
        seen.note("with must and barred rows, and a tree", {
            has(MUST) && has(BARRED) && whole.code == 0
        });
        if whole.code == 0 {
            with_a_tree += 1;
            pairs += pair.lists(rng, &mut seen);
        }
        longest = longest.max(size);
    }
    println!("{NETWORKS} networks, {pairs} pairs of trees, the longest front {longest}");
    seen.enough(ENOUGH);
    assert!(longest >= 20);
}

/// Network A with rows 0 and 1, which are parallel, exchanged: the trees with the one change places with those with the other.
#[test]
fn network_a_of_document_01() {
    let rng = &mut Rng::new(113);
    let seen = &mut Seen::default();
    let pair = Pair::new(network_a(), vec![1, 0, 2, 3]);
    let mut list = Vec::new();
    pages::each(&pair.other, 64, &mut |page| {
        list.extend(page.chunks(2).map(|tree| renamed(&pair.numbers, tree)))
    });
    assert_eq!(list, [[1, 2], [1, 3], [0, 2], [0, 3], [2, 3]]);
    pair.lists(rng, seen);
    for capacity in 0..5 {
        assert!(!pair.fronts(capacity, rng).1);
    }
}

/// Rows alike in all they have: the witness has the first of them in either file, which is another row of the other.
#[test]
fn rows_alike() {
    let rng = &mut Rng::new(2);
    let seen = &mut Seen::default();
    let mut network = network_a();
    network.rows[1] = network.rows[0].clone();
    let pair = Pair::new(network, vec![1, 0, 2, 3]);
    assert_eq!(pair.network, pair.other);
    let witnesses = front(&pair.other, [64, 64], rng).witnesses;
    assert_eq!(witnesses[0], [0, 3]);
    assert_eq!(renamed(&pair.numbers, &witnesses[0]), [1, 3]);
    pair.lists(rng, seen);
    for capacity in 1..5 {
        assert!(pair.fronts(capacity, rng).1);
    }
}

/// The network with rows beside others that cost the same, so that the first of them is in the witness, and with a few must
/// rows and a barred one.
fn beside(rng: &mut Rng, mut network: Network) -> Network {
    for _ in 0..9 {
        let row = rng.between(0, network.m() - 1);
        network.rows.push(network.rows[row].clone());
    }
    let tree = draw::forest(rng, &network);
    let mut states = vec![OPEN; network.m()];
    states[network.m() - 1] = BARRED;
    tree[..3]
        .iter()
        .for_each(|&row| states[row as usize] = MUST);
    network.with_states(&states)
}

/// Networks whose front is searched and not walked: street grids and sparse networks, with trenches beside others.
#[test]
fn large_networks() {
    let [mut networks, mut longest, mut other_witnesses] = [0; 3];
    let kinds: [&[u8]; 4] = [&[0, 1], &[0, 0], &[0, 2], &[0, 1, 2]];
    for (kinds, instance) in kinds.iter().flat_map(|&kinds| [(kinds, 1), (kinds, 2)]) {
        let rng = &mut Rng::new(instance);
        for network in [
            study::grid(4, 4, 8, kinds, instance),
            study::sparse(18, 30, kinds, instance),
            beside(rng, study::grid(4, 4, 3, kinds, instance)),
        ] {
            let numbers = numbers(rng, network.m());
            let pair = Pair::new(network, numbers);
            let size = front(&pair.network, [4 * 512, 32 * 512], rng).vectors.len();
            for capacity in [1, size.max(2) - 1, size] {
                let (_, another) = pair.fronts(capacity, rng);
                other_witnesses += another as usize;
            }
            assert!(is_searched(&pair.network));
            networks += 1;
            longest = longest.max(size);
        }
    }
    println!("{networks} networks, the longest front {longest}");
    println!("{other_witnesses} fronts with another tree as a witness");
    assert!(longest >= 20 && other_witnesses >= 10);
}
