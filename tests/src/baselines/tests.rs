//! Each way against the plain index: equal lists, the trie's trees equal to the plain ones, and no page tested that need not be.
use super::{register, Build, Hashing, Hits, Pages, Planes, Pointers, Way, Words};
use crate::plain::{distance, Hit};
use crate::random::Random;
use crate::stores::{small_settings, Sketches};
use crate::tables::{stale, Settings, Tables, FREE, MEMBERS};
use crate::trees::{Index, Node};

/// An index without a bound on nodes, with some classes open to reader 0.
fn index(random: &mut Random) -> (Settings, Index, u64) {
    let s = Settings { nodes: u32::MAX, ..small_settings(random) };
    let mut plain = Index::open(s.clone());
    let open = random.next() | random.next();
    assert_eq!(plain.join(0, 1), 0);
    for class in (0..64).filter(|k| open >> k & 1 == 1) {
        assert_eq!(plain.grant(1, class), 0);
    }
    (s, plain, open)
}

fn wanted(plain: &Index, radius: u32, query: &[u8]) -> Vec<Hit> {
    plain.search(0, radius, query).unwrap()
}

/// The list, and how many pages were tested for it.
fn listed(way: &mut dyn Way, open: u64, radius: u32, query: &[u8], out: &mut Hits) -> (Vec<Hit>, usize) {
    let tested = way.search(open, radius, query, out);
    let hits = out.pages().iter().zip(out.distances()).map(|(&page, &distance)| Hit { page: page.into(), distance: distance.into() });
    (hits.collect(), tested)
}

/// How many pages the leaves have that a walk comes to, from the block's packed bytes of a query.
fn met(node: &Node, b: u32, bytes: &[u8], left: u32) -> usize {
    let children = match node {
        Node::Leaf(pages) => return pages.len(),
        Node::Inner(children) => children,
    };
    let groups = |v: u8| (0..8 / b).filter(|i| u32::from(v) >> (i * b) & ((1 << b) - 1) != 0).count() as u32;
    let near = children.iter().map(|(&byte, child)| (groups(byte ^ bytes[0]), child)).filter(|(d, _)| *d <= left);
    near.map(|(d, child)| met(child, b, &bytes[1..], left - d)).sum()
}

fn inner_nodes(node: &Node) -> usize {
    match node {
        Node::Leaf(_) => 0,
        Node::Inner(children) => 1 + children.values().map(inner_nodes).sum::<usize>(),
    }
}

/// How many pages have the block within r / q of a query's, counted in each block.
fn near_blocks(plain: &Index, radius: u32, query: &[u8]) -> usize {
    let q = plain.trees.len();
    let near = |j: usize| {
        let (start, n) = plain.block(j);
        let rows = plain.rows.values().filter(|row| distance(&row.sketch[start..start + n], &query[start..start + n]) <= radius / q as u32);
        rows.count()
    };
    (0..q).map(near).sum()
}

/// A radius with few enough keys for hashing.
fn radius(random: &mut Random, s: &Settings) -> u32 {
    random.below(u64::from(s.q * if s.b > 4 { 2 } else { 3 })) as u32
}

/// Every page live, as hashing and the scans have it.
#[test]
fn scans_and_hashing_list_what_the_plain_index_lists() {
    let random = &mut Random::new(71);
    for _ in 0..300 {
        let (s, mut plain, open) = index(random);
        let sketches = Sketches::new(random, s.b, s.m, 3);
        let mut pages = Pages::new(s.m as usize);
        // more than a chunk of the scans
        let s = Settings { pages: 1 + random.below(150) as u32, ..s };
        plain.settings.pages = s.pages;
        for p in 0..s.pages {
            let (class, x) = (random.below(64) as u32, sketches.near(random, 4));
            assert_eq!(plain.put(p, class, &x), 0);
            pages.add(class as u8, &x);
        }
        let packed = pages.packed(s.b);
        let mut planes = Planes::new(&packed);
        let mut hashing = Hashing::new(&packed, s.q as usize);
        let out = &mut Hits::new(s.pages as usize);
        for _ in 0..5 {
            let (radius, query) = (radius(random, &s), sketches.near(random, 4));
            let lists = wanted(&plain, radius, &query);
            assert_eq!(listed(&mut &packed, open, radius, &query, out).0, lists, "packed rows, {s:?}");
            assert_eq!(listed(&mut planes, open, radius, &query, out).0, lists, "planes, {s:?}");
            let (list, tested) = listed(&mut hashing, open, radius, &query, out);
            assert_eq!(list, lists, "hashing, {s:?}");
            let (near, folded) = (near_blocks(&plain, radius, &query), s.m.div_ceil(s.q) * s.b.next_power_of_two() > 64);
            assert!(tested == near || folded && tested > near, "{tested} tested of {near}, {s:?}");
        }
    }
}

#[test]
fn each_build_of_the_scan_of_bits_lists_what_packed_rows_list() {
    let random = &mut Random::new(73);
    for m in [1, 40, 63, 64] {
        let mut pages = Pages::new(m);
        for _ in 0..1_000 {
            pages.add(random.below(64) as u8, &random.bytes(m, 2));
        }
        let (packed, open) = (pages.packed(1), random.next());
        let out = &mut Hits::new(1_000);
        for radius in [0, 5, 20, 28, 32, 64] {
            let query = random.bytes(m, 2);
            let lists = listed(&mut &packed, open, radius, &query, out).0;
            for mut words in Build::ALL.into_iter().filter_map(|build| Words::new(&packed, build)) {
                assert_eq!(listed(&mut words, open, radius, &query, out).0, lists, "m {m}, radius {radius}");
            }
        }
    }
}

#[test]
fn the_pointer_trie_has_the_plain_trees_and_lists() {
    let random = &mut Random::new(72);
    let mut pruned = 0;
    for _ in 0..300 {
        let (s, mut plain, open) = index(random);
        let mut trie = Pointers::with_thresholds(s.b, s.m as usize, s.q as usize, s.pages as usize, s.thresholds.clone());
        let sketches = Sketches::new(random, s.b, s.m, 3);
        for _ in 0..100 {
            let page = random.below(u64::from(s.pages) + 1) as u32;
            if random.below(3) == 0 {
                let before = trie.inner_nodes();
                assert_eq!(trie.drop(page), plain.drop(page) == 0);
                pruned += before - trie.inner_nodes();
            } else {
                let (class, x) = (random.below(65) as u32, sketches.near(random, 4));
                assert_eq!(trie.add(page, class as u8, &x), plain.add(page, class, &x) == 0);
            }
        }
        assert_eq!(trie.inner_nodes(), plain.trees.iter().map(inner_nodes).sum::<usize>(), "{s:?}");
        for (j, tree) in plain.trees.iter().enumerate() {
            assert_eq!(&trie.tree(j), tree, "block {j} of {s:?}");
        }
        let out = &mut Hits::new(s.pages as usize);
        for _ in 0..5 {
            let (radius, query) = (random.below(u64::from(s.m) + 1) as u32, sketches.near(random, 4));
            let met = plain.trees.iter().enumerate().map(|(j, tree)| met(tree, s.b, &plain.packed(j, &query), radius / s.q)).sum();
            assert_eq!(listed(&mut trie, open, radius, &query, out), (wanted(&plain, radius, &query), met), "{s:?}");
        }
    }
    assert!(pruned > 500, "{pruned}");
}

/// The plain register against the plain tables: numbers and words, with current entries and with any.
#[test]
fn register_of_rights() {
    let mut random = Random::new(87);
    let mut numbers = [0; 8];
    for round in 0..300 {
        let s = small_settings(&mut random);
        let mut t = Tables::filled_with(0, &s);
        assert_eq!(t.open(&s), 0);
        if round % 2 == 1 {
            t.settings[MEMBERS..FREE].iter_mut().for_each(|word| *word = random.next() as u32);
        }
        match random.below(20) {
            0 => t.settings[random.below(6) as usize] = 99_999_999,
            1 => t.settings[6 + random.below(64) as usize] = 65_536,
            2 => t.settings.truncate(FREE),
            _ => {}
        }
        let mut words = t.settings.clone();
        for _ in 0..60 {
            let (call, x, y) = (random.below(4), random.below(40) as u32, random.below(66) as u32);
            let (x, y) = if call < 2 { (x * 7, y / 2) } else { (x, y) };
            let number = match call {
                0 | 1 => register::member(&mut words, x, y, call == 0),
                _ => register::grant(&mut words, x, y, call == 2),
            };
            assert_eq!(number, t.right(call, x, y));
            assert!(words == t.settings, "call {call} of {x} {y}");
            numbers[number as usize] += 1;
        }
        assert!(words.len() <= FREE || register::is_current(&words) == stale(&words).is_empty());
    }
    assert!([0, 5, 6, 7].iter().all(|&n| numbers[n] > 100), "{numbers:?}");
}
