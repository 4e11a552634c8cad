//! A deposit is withdrawn, and another of the same size fits (document 02, F-2): nodes are counted exactly, and with one node fewer the
//! last page is refused by 12.
use std::collections::{BTreeMap, BTreeSet};
use vetchdawn_tests::calls;
use vetchdawn_tests::random::Random;
use vetchdawn_tests::stores::Sketches;
use vetchdawn_tests::tables::{Settings, Tables, FREE};
use vetchdawn_tests::trees::{whole, Index, Node};

type Deposit = Vec<Vec<u8>>;

const UNBOUNDED: u32 = u32::MAX;

fn opened(s: &Settings) -> Tables {
    let mut t = Tables::filled_with(0, s);
    assert_eq!(calls::open(&mut t, s), 0);
    t
}

fn shuffled(random: &mut Random, pages: impl Iterator<Item = u32>) -> Vec<u32> {
    let mut pages: Vec<u32> = pages.collect();
    for i in (1..pages.len()).rev() {
        pages.swap(i, random.below(i as u64 + 1) as usize);
    }
    pages
}

/// Alike or not, with an even symbol where a block begins; none is blank.
fn deposit(random: &mut Random, s: &Settings, n: usize, alike: bool) -> Deposit {
    let starts: Vec<usize> = (0..s.q as usize).map(|j| Index::open(s.clone()).block(j).0).collect();
    let centres = Sketches::new(random, s.b, s.m, 4);
    let mut sketches = Vec::new();
    while sketches.len() < n {
        let mut x = if alike { centres.near(random, 3) } else { random.bytes(s.m as usize, 1 << s.b) };
        starts.iter().for_each(|&at| x[at] &= !1);
        if x.iter().any(|&symbol| symbol != 0) {
            sketches.push(x);
        }
    }
    sketches
}

/// Every symbol turned round: the trees have the same shape, and no path of theirs below a root is one of the first deposit's.
fn turned(s: &Settings, first: &Deposit) -> Deposit {
    let most = ((1 << s.b) - 1) as u8;
    first.iter().map(|x| x.iter().map(|symbol| most - symbol).collect()).collect()
}

/// A store and the plain index beside it.
struct Both {
    t: Tables,
    plain: Index,
}

impl Both {
    fn open(s: &Settings) -> Self {
        Both { t: opened(s), plain: Index::open(s.clone()) }
    }

    fn add(&mut self, page: u32, x: &[u8]) -> u32 {
        let number = calls::add(&mut self.t.lend(), page, 1, x);
        assert_eq!(number, self.plain.add(page, 1, x), "add {page} {x:?} {:?}", self.plain.settings);
        number
    }

    /// Pages from 0 on. Gives each number.
    fn put(&mut self, deposit: &Deposit) -> Vec<u32> {
        deposit.iter().zip(0..).map(|(x, page)| self.add(page, x)).collect()
    }

    fn withdraw(&mut self, pages: &[u32]) {
        for &page in pages {
            assert_eq!((calls::drop(&mut self.t.lend(), page), self.plain.drop(page)), (0, 0));
            assert_eq!(whole(&self.t, &self.plain.settings), self.plain.trees, "drop {page} {:?}", self.plain.settings);
        }
    }

    /// How many nodes are in use; every other one is free.
    fn used(&self) -> usize {
        let trees = whole(&self.t, &self.plain.settings);
        assert_eq!(trees, self.plain.trees);
        Index::total(&trees)
    }
}

/// The deposit as far as the last page that makes nodes, and how many nodes its trees have.
fn up_to_the_last_node(s: &Settings, mut deposit: Deposit) -> (Deposit, u32) {
    let mut plain = Index::open(Settings { nodes: UNBOUNDED, ..s.clone() });
    let mut totals = vec![plain.trees.len()];
    for (x, page) in deposit.iter().zip(0..) {
        assert_eq!(plain.put(page, 1, x), 0);
        totals.push(Index::total(&plain.trees));
    }
    let most = *totals.last().unwrap();
    deposit.truncate(totals.iter().position(|&total| total == most).unwrap());
    (deposit, most as u32)
}

/// Accepted, but for the last one.
fn all_but_the_last(numbers: &[u32], last: u32) {
    let (end, rest) = numbers.split_last().unwrap();
    assert!(rest.iter().all(|&number| number == 0) && *end == last, "{numbers:?}");
}

/// Does some tree have an inner node below its root?
fn deep(trees: &[Node]) -> bool {
    let inner = |node: &Node| matches!(node, Node::Inner(_));
    trees.iter().any(|tree| matches!(tree, Node::Inner(children) if children.values().any(inner)))
}

/// Before F-2 the second deposit did not fit where the trees of the first had inner nodes below a root. Gives whether it did not.
fn refused_before(s: &Settings, first: &Deposit, second: &Deposit) -> bool {
    let mut plain = Index::open(s.clone());
    for (x, page) in first.iter().zip(0..) {
        assert_eq!(plain.add(page, 1, x), 0);
    }
    let deep = deep(&plain.trees);
    for page in 0..first.len() as u32 {
        assert_eq!(plain.drop_before(page), 0);
    }
    let refused = second.iter().zip(0..).any(|(x, page)| plain.add(page, 1, x) == 12);
    assert_eq!(refused, deep, "{s:?}");
    refused
}

/// Some b, q and thresholds; blocks of one to 24 packed bytes.
fn cases() -> Vec<Settings> {
    let mut cases = Vec::new();
    for b in 1..=8 {
        for q in [1, 2, 3, 8] {
            for by_level in [[0, 0], [1, 1], [6, 6], [2, 0]] {
                let m = if b <= 2 { 64 } else { 24 };
                cases.push(Settings { b, m, q, pages: 64, nodes: 0, thresholds: by_level.repeat(32) });
            }
        }
    }
    cases
}

#[test]
fn the_next_one_fits() {
    let mut random = Random::new(81);
    let mut refused = 0;
    for s in cases() {
        let alike = deposit(&mut random, &s, 50, true);
        let (first, nodes) = up_to_the_last_node(&s, alike);
        let second = turned(&s, &first);
        let s = Settings { nodes, ..s };
        refused += u32::from(refused_before(&s, &first, &second));
        let fresh = vec![Node::fresh(); s.q as usize];

        let mut both = Both::open(&s);
        all_but_the_last(&both.put(&first), 0);
        assert_eq!((both.used(), both.t.settings[FREE]), (nodes as usize, 0));
        both.withdraw(&shuffled(&mut random, 0..first.len() as u32));
        assert_eq!((both.used(), &both.plain.trees), (s.q as usize, &fresh));
        all_but_the_last(&both.put(&second), 0);
        assert_eq!((both.used(), both.t.settings[FREE]), (nodes as usize, 0));

        // one node fewer
        let s = Settings { nodes: nodes - 1, ..s };
        let mut both = Both::open(&s);
        all_but_the_last(&both.put(&first), 12);
        both.withdraw(&shuffled(&mut random, 0..first.len() as u32 - 1));
        assert_eq!((both.used(), &both.plain.trees), (s.q as usize, &fresh));
        all_but_the_last(&both.put(&second), 12);
    }
    assert!(refused > 100, "{refused}");
}

/// The part of a tree that has some of the pages.
fn part(node: &Node, stay: &BTreeSet<u32>) -> Option<Node> {
    match node {
        Node::Leaf(pages) => {
            let pages: BTreeSet<u32> = pages & stay;
            (!pages.is_empty()).then_some(Node::Leaf(pages))
        }
        Node::Inner(children) => {
            let children: BTreeMap<u8, Node> = children.iter().filter_map(|(&byte, child)| Some((byte, part(child, stay)?))).collect();
            (!children.is_empty()).then_some(Node::Inner(children))
        }
    }
}

/// Pages of which some stay when the others are withdrawn. Gives the trees that are left; how many of the next sketches there are up to the
/// first that needs more nodes than were ever in use; and how many nodes there are then.
fn among_others(s: &Settings, first: &Deposit, stay: &BTreeSet<u32>, next: &Deposit) -> (Vec<Node>, usize, u32) {
    let mut plain = Index::open(Settings { nodes: UNBOUNDED, ..s.clone() });
    for (x, page) in first.iter().zip(0..) {
        assert_eq!(plain.put(page, 1, x), 0);
    }
    let most = Index::total(&plain.trees);
    let left: Vec<Node> = plain.trees.iter().map(|tree| part(tree, stay).unwrap_or_else(Node::fresh)).collect();
    plain.trees = left.clone();
    plain.rows.retain(|page, _| stay.contains(page));
    for (i, x) in next.iter().enumerate() {
        assert_eq!(plain.put(100 + i as u32, 1, x), 0);
        if Index::total(&plain.trees) > most {
            return (left, i + 1, Index::total(&plain.trees) as u32);
        }
    }
    panic!("too few sketches, {s:?}");
}

#[test]
fn what_stays_keeps_its_nodes() {
    let mut random = Random::new(82);
    for s in cases() {
        let s = Settings { pages: 500, ..s };
        let alike = deposit(&mut random, &s, 50, true);
        let stay: BTreeSet<u32> = (0..random.below(15)).map(|_| random.below(50) as u32).collect();
        let leave = shuffled(&mut random, (0..50).filter(|page| !stay.contains(page)));
        let next = turned(&s, &deposit(&mut random, &s, 400, false));
        let (left, count, nodes) = among_others(&s, &alike, &stay, &next);
        for (nodes, last) in [(nodes, 0), (nodes - 1, 12)] {
            let mut both = Both::open(&Settings { nodes, ..s.clone() });
            all_but_the_last(&both.put(&alike), 0);
            both.withdraw(&leave);
            assert_eq!((both.used(), &both.plain.trees), (Index::total(&left), &left));
            let numbers: Vec<u32> = next[..count].iter().zip(100..).map(|(x, page)| both.add(page, x)).collect();
            all_but_the_last(&numbers, last);
            let used = both.used();
            assert!(last == 12 || used == nodes as usize, "{used}, not {nodes}");
        }
    }
}

/// Adds pages from 0 on. Gives the number of the last add, and which was the last that made nodes.
fn put(t: &mut Tables, deposit: &Deposit) -> (u32, usize) {
    let (mut last, mut grown) = (0, 0);
    for (page, x) in deposit.iter().enumerate() {
        assert_eq!(last, 0, "page {page}");
        let free = t.settings[FREE];
        last = calls::add(&mut t.lend(), page as u32, 1, x);
        if t.settings[FREE] != free {
            grown = page;
        }
    }
    (last, grown)
}

fn withdraw(t: &mut Tables, pages: &[u32]) {
    assert!(pages.iter().all(|&page| calls::drop(&mut t.lend(), page) == 0));
}

/// As `the_next_one_fits`, at full size, where the library itself says how many nodes the deposit needs.
fn large(s: &Settings, mut first: Deposit) {
    let mut random = Random::new(83);
    let mut t = opened(s);
    let (last, grown) = put(&mut t, &first);
    assert_eq!(last, 0, "{s:?}");
    let nodes = Index::total(&whole(&t, s)) as u32;
    first.truncate(grown + 1);
    let second = turned(s, &first);
    let pages = shuffled(&mut random, 0..first.len() as u32);
    let fresh = vec![Node::fresh(); s.q as usize];
    for (nodes, last) in [(nodes, 0), (nodes - 1, 12)] {
        let s = Settings { nodes, ..s.clone() };
        let mut t = opened(&s);
        let stored = &pages.iter().copied().filter(|&page| last == 0 || page as usize != grown).collect::<Vec<_>>();
        for deposit in [&first, &second] {
            assert_eq!(put(&mut t, deposit).0, last);
            let used = Index::total(&whole(&t, &s));
            assert!(last == 12 || used == nodes as usize, "{used}, not {nodes}");
            withdraw(&mut t, stored);
            let left = whole(&t, &s);
            assert_eq!(Index::total(&left), s.q as usize);
            assert!(left == fresh);
        }
    }
}

#[test]
fn at_full_size() {
    let mut random = Random::new(84);
    let s = Settings { b: 4, m: 32, q: 4, pages: 65_535, nodes: 262_144, thresholds: vec![32; 64] };
    let any = deposit(&mut random, &s, 65_535, false);
    large(&s, any);
    let s = Settings { b: 8, m: 16, q: 2, pages: 40_000, nodes: 262_144, thresholds: vec![0; 64] };
    let any = deposit(&mut random, &s, 40_000, false);
    large(&s, any);
}
