//! Add and drop through C against explicit trees in plain Rust, node for node; and on damaged tables.
use vetchdawn_tests::calls;
use vetchdawn_tests::guard::GuardedTables;
use vetchdawn_tests::outcomes::judge;
use vetchdawn_tests::plain::signature;
use vetchdawn_tests::random::Random;
use vetchdawn_tests::state::{self, EMPTY_LEAF, FREE_NODE, INNER};
use vetchdawn_tests::stores::{cut_short, damaged, deep_settings, filled, opened, small_settings, Sketches};
use vetchdawn_tests::tables::{Settings, Tables, FREE};
use vetchdawn_tests::trees::{whole, Index, Node};

/// An operand that is now and then out of its range.
fn page_of(random: &mut Random, s: &Settings) -> u32 {
    match random.below(40) {
        0 => s.pages,
        1 => random.next() as u32,
        _ => random.below(u64::from(s.pages)) as u32,
    }
}

fn class_of(random: &mut Random) -> u32 {
    match random.below(40) {
        0 => 64,
        1 => random.next() as u32,
        _ => random.below(64) as u32,
    }
}

fn sketch_of(random: &mut Random, s: &Settings, sketches: &Sketches) -> Vec<u8> {
    let mut x = sketches.near(random, 3);
    match random.below(40) {
        0 => x.push(0),
        1 => x.truncate(x.len() - 1),
        2 if s.b < 8 => x[0] = 1 << s.b,
        3 => x.fill(0),
        _ => {}
    }
    x
}

/// The tables hold just the rows and trees of the plain index, and nothing else changed.
fn compare(t: &Tables, before: &Tables, plain: &Index) {
    let s = &plain.settings;
    let (p, m) = (s.pages as usize, s.m as usize);
    assert_eq!(whole(t, s), plain.trees);
    for page in 0..p {
        let row = plain.rows.get(&(page as u32));
        assert_eq!(t.pages[page], row.map_or(0, |row| 1 + row.class));
        if let Some(row) = row {
            assert_eq!((t.pages[p + page], &t.sketches[page * m..page * m + m]), (signature(s.b, &row.sketch), &row.sketch[..]));
        } else {
            assert_eq!(t.pages[p + page], before.pages[p + page]);
            assert_eq!(t.sketches[page * m..page * m + m], before.sketches[page * m..page * m + m]);
        }
    }
    assert_eq!(t.settings[..FREE], before.settings[..FREE]);
    assert_eq!(t.settings[FREE + 1..], before.settings[FREE + 1..]);
    let l = s.lengths();
    assert_eq!(t.nodes[l.nodes..], before.nodes[l.nodes..]);
    assert_eq!(t.pages[l.pages..], before.pages[l.pages..]);
    assert_eq!(t.sketches[l.sketches..], before.sketches[l.sketches..]);
    assert_eq!(t.working, before.working);
}

fn counts(trees: &[Node]) -> Vec<usize> {
    trees.iter().map(Node::count).collect()
}

#[test]
fn histories() {
    let mut random = Random::new(21);
    let mut numbers = [0u32; 16];
    // the nodes that a drop takes out of one tree
    let mut taken = [0u32; 4];
    for round in 0..3_000 {
        let s = if round % 2 == 0 { small_settings(&mut random) } else { deep_settings(&mut random) };
        let (mut t, mut plain) = opened(&mut random, &s);
        let centres = 1 + random.below(5) as usize;
        let sketches = Sketches::new(&mut random, s.b, s.m, centres);
        let drops = 1 + random.below(3);
        for _ in 0..120 {
            let before = t.clone();
            let page = page_of(&mut random, &s);
            let number = if random.below(5) < drops {
                let nodes = counts(&plain.trees);
                let number = calls::drop(&mut t.lend(), page);
                assert_eq!(number, plain.drop(page), "drop {page} {s:?}");
                nodes.iter().zip(counts(&plain.trees)).for_each(|(before, now)| taken[(before - now).min(3)] += 1);
                number
            } else {
                let (class, x) = (class_of(&mut random), sketch_of(&mut random, &s, &sketches));
                let number = calls::add(&mut t.lend(), page, class, &x);
                assert_eq!(number, plain.add(page, class, &x), "add {page} {class} {x:?} {s:?}");
                number
            };
            numbers[number as usize] += 1;
            if number == 0 {
                compare(&t, &before, &plain);
            } else {
                assert!(t == before, "a refusal changed a table");
            }
        }
    }
    assert!([0, 7, 8, 9, 10, 11, 12, 15].iter().all(|&n| numbers[n] > 20), "{numbers:?}");
    assert!(taken[1] > 10_000 && taken[2] > 5_000 && taken[3] > 500, "{taken:?}");
}

#[test]
fn short_tables() {
    let mut random = Random::new(22);
    for _ in 0..600 {
        let s = small_settings(&mut random);
        let (mut t, _, sketches) = filled(&mut random, &s, 30);
        // all but the working table, which these calls do not take
        let want = cut_short(&mut random, &mut t, &s, 4);
        let before = t.clone();
        let (page, x) = (random.below(50) as u32, sketches.near(&mut random, 2));
        assert_eq!(calls::add(&mut t.lend(), page, 1, &x), want);
        assert_eq!(calls::drop(&mut t.lend(), page), want);
        assert!(t == before);
    }
}

#[test]
fn damaged_tables() {
    let mut random = Random::new(23);
    let (mut adds, mut drops) = ([0u32; 16], [0u32; 16]);
    let mut stopped_rows = [0u32; 2];
    for round in 0..6_000 {
        let s = small_settings(&mut random);
        let (mut t, sketches) = damaged(&mut random, &s, round);
        if random.below(2) == 0 {
            t.cut(&s.lengths()); // a guard stands right behind each
        }
        let mut lent = GuardedTables::new(&t);
        for _ in 0..10 {
            let before = lent.tables();
            let page = page_of(&mut random, &s);
            let (class, x) = (class_of(&mut random), sketch_of(&mut random, &s, &sketches));
            let added = (random.below(3) != 0).then_some((class, &x[..]));
            let number = match added {
                Some((class, x)) => calls::add(&mut lent.lend(), page, class, x),
                None => calls::drop(&mut lent.lend(), page),
            };
            let written = judge(&before, &lent.tables(), &s, page, added, number);
            if added.is_some() {
                adds[number as usize] += 1;
                stopped_rows[usize::from(written)] += u32::from(number == 14);
            } else {
                drops[number as usize] += 1;
            }
        }
    }
    assert!([0, 12, 14, 15].iter().all(|&n| adds[n] > 100), "{adds:?}");
    assert!([0, 14].iter().all(|&n| drops[n] > 100), "{drops:?}");
    assert!(stopped_rows.iter().all(|&n| n > 20), "{stopped_rows:?}");
}

/// A store with one trie over one byte, threshold 1, for 8 nodes and 4 pages. Page 0 has byte 5, page 1 byte 6: one of them stands in the
/// root, two in the leaves 2 and 1. States stand from word 8 of the nodes on, head 0 of the root in word 16, page links from word 8 on.
fn tiny(live: u32) -> Tables {
    let s = Settings { b: 8, m: 1, q: 1, pages: 4, nodes: 8, thresholds: vec![1; 64] };
    let mut t = Tables::filled_with(0, &s);
    assert_eq!(calls::open(&mut t, &s), 0);
    for page in 0..live {
        assert_eq!(calls::add(&mut t.lend(), page, 1, &[5 + page as u8]), 0);
    }
    t
}

/// What was damaged, in a store of so many pages; an add of page 2 with a byte, or a drop of page 0; and its number.
type Damage = (&'static str, u32, fn(&mut Tables), Option<u8>, u32);

const BYTE_5: u32 = 5 << 19;

const DAMAGES: [Damage; 23] = [
    ("nothing", 2, |_| (), Some(6), 0),
    ("a head leads outside", 2, |t| t.nodes[16] = 9, Some(5), 14),
    ("a chain word leads outside", 2, |t| t.nodes[2] = BYTE_5 + 9, Some(6), 14),
    ("siblings without end", 2, |t| t.nodes[2] = BYTE_5 + 3, Some(6), 14),
    ("a free node on the path", 2, |t| t.nodes[10] = FREE_NODE, Some(5), 14),
    ("an inner node at the packed length", 2, |t| t.nodes[10] = INNER, Some(5), 14),
    ("a link at the packed length, not followed", 2, |t| t.pages[8] = 99, Some(5), 0),
    ("a page link leads outside", 1, |t| t.pages[8] = 99, Some(5), 14),
    ("pages without end", 1, |t| t.pages[8] = 1, Some(5), 14),
    ("the free link leads outside", 1, |t| t.settings[FREE] = 9, Some(5), 14),
    ("the free chain is cut", 1, |t| t.settings[FREE] = 0, Some(5), 12),
    ("the free link leads to a node in use", 1, |t| t.settings[FREE] = 1, Some(5), 0),
    ("a leaf with a child that is free", 1, |t| (t.nodes[16], t.nodes[3]) = (4, BYTE_5), Some(5), 14),
    ("nothing", 2, |_| (), None, 0),
    ("a head leads outside", 2, |t| t.nodes[16] = 9, None, 14),
    ("a free node on the path", 2, |t| t.nodes[10] = FREE_NODE, None, 14),
    ("an inner node at the packed length", 2, |t| t.nodes[10] = INNER, None, 14),
    ("the link behind the first page leads outside", 2, |t| t.pages[8] = 99, None, 14),
    ("pages without end", 2, |t| (t.nodes[10], t.pages[10]) = (state::leaf(1, 3), 3), None, 14),
    ("the page is not in its leaf", 2, |t| t.nodes[10] = EMPTY_LEAF, None, 14),
    ("the page's row leads to another leaf", 2, |t| t.sketches[0] = 6, None, 14),
    ("the page's row leads to no leaf", 2, |t| t.sketches[0] = 7, None, 14),
    ("the free link leads outside, not followed", 2, |t| t.settings[FREE] = 99, None, 0),
];

#[test]
fn numbers_of_damage() {
    for (what, live, damage, added, number) in DAMAGES {
        let mut t = tiny(live);
        damage(&mut t);
        let given = match added {
            Some(byte) => calls::add(&mut t.lend(), 2, 1, &[byte]),
            None => calls::drop(&mut t.lend(), 0),
        };
        assert_eq!(given, number, "{what}, {added:?}");
    }
}
