//! Drops on tables that are damaged on the way of the page, down to its leaf and up again: each ends, stays inside the tables, gives 0 or 14
//! and writes nothing outside the tries. So do the calls behind it.
use std::collections::BTreeMap;
use vetchdawn_tests::calls;
use vetchdawn_tests::guard::GuardedTables;
use vetchdawn_tests::lists::{right_by_the_rows, Lists};
use vetchdawn_tests::outcomes::judge;
use vetchdawn_tests::random::Random;
use vetchdawn_tests::sound::sound;
use vetchdawn_tests::state::{self, EMPTY_LEAF, FREE_NODE, INNER};
use vetchdawn_tests::stores::{damage_way, deep_settings, filled, small_settings, way};
use vetchdawn_tests::tables::{class_of, Settings, Tables, FREE};
use vetchdawn_tests::trees::{Index, Node, Row};
use vetchdawn_tests::written::written;

/// Tables right before a guard, or right behind one.
fn guarded(t: &Tables, before: bool) -> GuardedTables {
    if before { GuardedTables::at_start(t) } else { GuardedTables::new(t) }
}

/// One add, or one drop; its number, and the tables then.
fn call(lent: &mut GuardedTables, s: &Settings, page: u32, added: Option<(u32, &[u8])>) -> (u32, Tables) {
    let before = lent.tables();
    let number = match added {
        Some((class, x)) => calls::add(&mut lent.lend(), page, class, x),
        None => calls::drop(&mut lent.lend(), page),
    };
    let after = lent.tables();
    judge(&before, &after, s, page, added, number);
    (number, after)
}

/// The other calls end too: a search lists nothing that it must not, and the check tells whether the store is sound.
fn read(lent: &mut GuardedTables, s: &Settings, query: &[u8]) {
    let mut lists = Lists::new(s.pages as usize);
    for radius in [0, 1, s.m] {
        let (given, list) = lists.search(&mut lent.lend(), 0, radius, query, [s.pages as usize; 2]);
        assert!(given.number == 0 || given.number == 14, "{given:?}");
        assert!(right_by_the_rows(&lent.lend(), 0, radius, query, &list), "{list:?}");
    }
    assert_eq!(calls::check(&mut lent.lend()), (0, sound(&lent.tables(), s)));
}

const NODES: usize = 8;
const BYTE_5: u32 = 5 << 19;

/// Tries over three bytes for 8 nodes and 4 pages. Page 0 has the bytes 5 5 5 in every block: below each root stand two inner nodes and the
/// leaf, one the only child of the other.
fn settings(q: u32) -> Settings {
    Settings { b: 8, m: 3 * q, q, pages: 4, nodes: NODES as u32, thresholds: vec![0; 64] }
}

/// With one block the nodes on the way are 0, 1, 2 and 3; with two they are 0, 2, 3, 4 and 1, 5, 6, 7.
fn chain(q: u32) -> Tables {
    let mut plain = Index::open(settings(q));
    let below = |node: Node| Node::Inner(BTreeMap::from([(5, node)]));
    plain.trees = vec![below(below(below(Node::Leaf([0].into())))); q as usize];
    plain.rows.insert(0, Row { class: 1, sketch: vec![5; 3 * q as usize] });
    let t = written(&plain);
    let ways: &[&[usize]] = if q == 1 { &[&[0, 1, 2, 3]] } else { &[&[0, 2, 3, 4], &[1, 5, 6, 7]] };
    assert!(sound(&t, &plain.settings) && ways.iter().enumerate().all(|(j, want)| way(&t, &plain.settings, j, 0) == *want));
    t
}

/// The word with head g of a node.
fn head(x: usize, g: usize) -> usize {
    2 * NODES + 8 * x + g
}

/// The word with the link of block 0 behind page 0.
const BEHIND_PAGE_0: usize = 2 * 4;

/// What was damaged, in tables of so many blocks, and the numbers that a drop of page 0 may give.
type Damage = (&'static str, u32, fn(&mut Tables), &'static [u32]);

const DAMAGES: [Damage; 42] = [
    ("nothing", 1, |_| (), &[0]),
    ("nothing", 2, |_| (), &[0]),
    // the way down does not end
    ("a node is its own child", 1, |t| t.nodes[head(2, 0)] = 3, &[14]),
    ("a node is its own grandchild", 1, |t| t.nodes[head(2, 0)] = 2, &[14]),
    ("the root is its own child", 1, |t| (t.nodes[head(0, 0)], t.nodes[0]) = (1, BYTE_5), &[14]),
    ("the root is its own grandchild", 1, |t| (t.nodes[head(1, 0)], t.nodes[0]) = (1, BYTE_5), &[14]),
    ("the root below all", 1, |t| (t.nodes[head(2, 0)], t.nodes[0]) = (1, BYTE_5), &[14]),
    ("siblings without end", 1, |t| (t.nodes[head(2, 0)], t.nodes[2]) = (3, 3), &[14]),
    // or leads astray
    ("the root's head leads outside", 1, |t| t.nodes[head(0, 0)] = 9, &[14]),
    ("the last head leads outside", 1, |t| t.nodes[head(2, 0)] = 9, &[14]),
    ("a head leads far outside", 1, |t| t.nodes[head(1, 0)] = 0x7_ffff, &[14]),
    ("no child there", 1, |t| t.nodes[head(2, 0)] = 0, &[14]),
    ("a free node on the way", 1, |t| t.nodes[NODES + 1] = FREE_NODE, &[14]),
    ("an empty leaf on the way", 1, |t| t.nodes[NODES + 2] = EMPTY_LEAF, &[14]),
    ("the leaf is inner", 1, |t| t.nodes[NODES + 3] = INNER, &[14]),
    ("the leaf is free", 1, |t| t.nodes[NODES + 3] = FREE_NODE, &[14]),
    ("the link behind the page leads outside", 1, |t| t.pages[BEHIND_PAGE_0] = 5, &[14]),
    // the way down is as it was, and the links beside it are not
    ("the page follows itself", 1, |t| t.pages[BEHIND_PAGE_0] = 1, &[0, 14]),
    ("the leaf follows itself", 1, |t| t.nodes[3] = BYTE_5 + 4, &[0, 14]),
    ("the leaf's parent follows it", 1, |t| t.nodes[3] = BYTE_5 + 3, &[0, 14]),
    ("the root follows the leaf", 1, |t| t.nodes[3] = BYTE_5 + 1, &[0, 14]),
    ("the leaf's sibling is outside", 1, |t| t.nodes[3] = BYTE_5 + 9, &[0, 14]),
    ("the parent follows itself", 1, |t| t.nodes[2] = BYTE_5 + 3, &[0, 14]),
    ("the leaf follows its parent", 1, |t| t.nodes[2] = BYTE_5 + 4, &[0, 14]),
    ("the grandparent follows the parent", 1, |t| t.nodes[2] = BYTE_5 + 2, &[0, 14]),
    ("the parent's sibling is outside", 1, |t| t.nodes[2] = BYTE_5 + 0x7_ffff, &[0, 14]),
    ("the grandparent's sibling is outside", 1, |t| t.nodes[1] = BYTE_5 + 9, &[0, 14]),
    ("the grandparent follows itself", 1, |t| t.nodes[1] = BYTE_5 + 2, &[0, 14]),
    ("another head of the parent leads outside", 1, |t| t.nodes[head(2, 7)] = 9, &[0, 14]),
    ("another head of the parent leads up", 1, |t| t.nodes[head(2, 7)] = 2, &[0, 14]),
    ("another head of the grandparent leads outside", 1, |t| t.nodes[head(1, 1)] = u32::MAX, &[0, 14]),
    ("another head of the root leads to itself", 1, |t| t.nodes[head(0, 3)] = 1, &[0, 14]),
    ("a head with a byte above its link", 1, |t| t.nodes[head(2, 0)] |= BYTE_5, &[0, 14]),
    ("a head with a byte and no link", 1, |t| t.nodes[head(1, 4)] = BYTE_5, &[0, 14]),
    ("the leaf has a child", 1, |t| t.nodes[head(3, 0)] = 2, &[0, 14]),
    ("the page in a leaf on the way", 1, |t| t.nodes[NODES + 1] = state::leaf(1, 1), &[0, 14]),
    ("the free link leads to the leaf", 1, |t| t.settings[FREE] = 4, &[0, 14]),
    ("the free link leads to the parent", 1, |t| t.settings[FREE] = 3, &[0, 14]),
    ("the free link leads outside", 1, |t| t.settings[FREE] = u32::MAX, &[0, 14]),
    // the other block
    ("the other root on the way", 2, |t| (t.nodes[head(2, 0)], t.nodes[1]) = (2, BYTE_5), &[0, 14]),
    ("the ways of two blocks meet", 2, |t| t.nodes[head(1, 0)] = 3, &[0, 14]),
    ("the ways of two blocks meet in a leaf", 2, |t| t.nodes[head(6, 0)] = 5, &[0, 14]),
];

#[test]
fn numbers_of_damage() {
    for (what, q, damage, numbers) in DAMAGES {
        let s = settings(q);
        for before in [false, true] {
            let mut t = chain(q);
            damage(&mut t);
            let mut lent = guarded(&t, before);
            let (number, after) = call(&mut lent, &s, 0, None);
            assert!(numbers.contains(&number), "{what}: {number}");
            let fresh = (0..q as usize).all(|j| after.nodes[NODES + j] == EMPTY_LEAF);
            assert!(what != "nothing" || sound(&after, &s) && fresh, "{what}: not a fresh store");
            read(&mut lent, &s, &vec![5; s.m as usize]);
            // what is left is damaged, but no less lent
            for page in [0, 1, 2, 3, 1, 0, 2] {
                let sketch = vec![5 + page as u8 % 2; s.m as usize];
                call(&mut lent, &s, page, Some((1, &sketch)));
                call(&mut lent, &s, page, None);
                call(&mut lent, &s, page ^ 1, Some((1, &sketch)));
                read(&mut lent, &s, &sketch);
            }
        }
    }
}

/// A way that goes round and still ends in the leaf: the root is the grandchild of itself, and page 0 has the bytes 5 5 6.
#[test]
fn a_way_that_goes_round() {
    let s = settings(1);
    let mut t = chain(1);
    t.sketches[2] = 6;
    t.pages[4] ^= 3 << 16; // the signature of the row
    t.nodes[0] = BYTE_5;
    t.nodes[1] = BYTE_5 + 4;
    t.nodes[3] = 6 << 19;
    t.nodes[head(1, 0)] = 1;
    for before in [false, true] {
        let mut lent = guarded(&t, before);
        call(&mut lent, &s, 0, None);
        read(&mut lent, &s, &[5, 5, 6]);
        call(&mut lent, &s, 1, Some((1, &[5, 5, 6])));
        call(&mut lent, &s, 1, None);
        read(&mut lent, &s, &[5, 5, 6]);
    }
}

/// How many nodes were inner and are no more.
fn pruned(before: &Tables, after: &Tables, s: &Settings) -> usize {
    let states = s.nodes as usize..2 * s.nodes as usize;
    before.nodes[states.clone()].iter().zip(&after.nodes[states]).filter(|(&was, &is)| was == INNER && is != INNER).count()
}

#[test]
fn damage_on_the_way() {
    let mut random = Random::new(24);
    let (mut numbers, mut pruned_by) = ([0u32; 16], [0usize; 3]);
    for round in 0..12_000 {
        let s = if round % 3 == 0 { small_settings(&mut random) } else { deep_settings(&mut random) };
        let (mut t, mut plain, sketches) = filled(&mut random, &s, 60);
        // few pages are left, with long ways of their own
        let stay = 1 + random.below(6) as usize;
        while plain.rows.len() > stay {
            let page = *plain.rows.keys().nth(random.below(plain.rows.len() as u64) as usize).unwrap();
            assert_eq!((calls::drop(&mut t.lend(), page), plain.drop(page)), (0, 0));
        }
        let Some(&page) = plain.rows.keys().nth(random.below(stay as u64) as usize % plain.rows.len().max(1)) else { continue };
        damage_way(&mut random, &mut t, &s, page);
        if random.below(2) == 0 {
            t.cut(&s.lengths()); // a guard stands right behind each
        }
        let mut lent = guarded(&t, random.below(2) == 0);
        let (number, after) = call(&mut lent, &s, page, None);
        numbers[number as usize] += 1;
        if number == 0 {
            pruned_by[pruned(&t, &after, &s).min(2)] += 1;
        }
        for _ in 0..8 {
            let (page, x) = (random.below(u64::from(s.pages)) as u32, sketches.near(&mut random, 3));
            let live = class_of(&lent.tables().pages, page as usize).is_some();
            call(&mut lent, &s, page, (!live || random.below(4) == 0).then_some((1, &x)));
        }
        read(&mut lent, &s, &sketches.near(&mut random, 3));
    }
    assert!(numbers[0] > 2_000 && numbers[14] > 2_000, "{numbers:?}");
    assert!(pruned_by.iter().all(|&n| n > 500), "{pruned_by:?}");
}
