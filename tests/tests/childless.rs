//! Inner nodes without children, which stores from before F-2 may have (document 02): they are sound, are searched past, take room and
//! stay, until an add gives them a child. With their last child they go as all others do.
use std::collections::BTreeSet;
use vetchdawn_tests::calls::{self, Given};
use vetchdawn_tests::lists::Lists;
use vetchdawn_tests::random::Random;
use vetchdawn_tests::sound::sound;
use vetchdawn_tests::stores::{deep_settings, small_settings, Sketches};
use vetchdawn_tests::tables::{Settings, Tables};
use vetchdawn_tests::trees::{whole, Index, Node, Row};
use vetchdawn_tests::written::written;

fn leaf(pages: &[u32]) -> Node {
    Node::Leaf(pages.iter().copied().collect())
}

fn inner<const N: usize>(children: [(u8, Node); N]) -> Node {
    Node::Inner(children.into())
}

/// A sketch of three bytes.
type Three = [u8; 3];

/// The tables, and the plain index beside them: one block of three bytes, threshold 1, every page open to reader 0.
struct Store {
    t: Tables,
    plain: Index,
    lists: Lists,
}

impl Store {
    /// A tree written by hand.
    fn new(nodes: u32, rows: &[(u32, Three)], tree: Node) -> Self {
        let mut plain = Index::open(Settings { b: 8, m: 3, q: 1, pages: 8, nodes, thresholds: vec![1; 64] });
        assert_eq!((plain.join(0, 0), plain.grant(0, 1)), (0, 0));
        plain.rows = rows.iter().map(|&(page, x)| (page, Row { class: 1, sketch: x.to_vec() })).collect();
        plain.trees = vec![tree];
        let mut store = Store { t: written(&plain), plain, lists: Lists::new(8) };
        store.is(&store.plain.trees[0].clone());
        store
    }

    /// Has this tree, is sound, and lists what a scan lists.
    fn is(&mut self, tree: &Node) {
        let s = &self.plain.settings;
        assert_eq!((&whole(&self.t, s)[0], &self.plain.trees[0]), (tree, tree));
        assert!(sound(&self.t, s) && calls::check(&mut self.t.lend()) == (0, true));
        let bytes = [0, 1, 2, 3, 4, 9, 200];
        for query in bytes.iter().flat_map(|&x| bytes.iter().flat_map(move |&y| bytes.map(|z| [x, y, z]))) {
            for radius in 0..=3 {
                searched(&mut self.t, &self.plain, &mut self.lists, 0, radius, &query);
            }
        }
    }

    /// Accepted, and the tree is this one then.
    fn add(&mut self, page: u32, x: Three, tree: &Node) {
        assert_eq!((calls::add(&mut self.t.lend(), page, 1, &x), self.plain.add(page, 1, &x)), (0, 0));
        self.is(tree);
    }

    fn drop(&mut self, page: u32, tree: &Node) {
        assert_eq!((calls::drop(&mut self.t.lend(), page), self.plain.drop(page)), (0, 0));
        self.is(tree);
    }

    /// Refused by 12, and nothing is changed.
    fn no_room(&mut self, page: u32, x: Three) {
        let before = self.t.clone();
        assert_eq!((calls::add(&mut self.t.lend(), page, 1, &x), self.plain.add(page, 1, &x)), (12, 12));
        assert!(self.t == before, "a refusal changed a table");
    }
}

/// A search that lists what a scan lists; how many pages.
fn searched(t: &mut Tables, plain: &Index, lists: &mut Lists, reader: u32, radius: u32, query: &[u8]) -> usize {
    let want = plain.search(reader, radius, query).unwrap();
    let count = want.len();
    let found = lists.search(&mut t.lend(), reader, radius, query, [count; 2]);
    assert_eq!(found, (Given { number: 0, value: count as u32 }, want), "{:?}", plain.settings);
    count
}

#[test]
fn a_drop_elsewhere_leaves_them() {
    let page = inner([(3, leaf(&[0]))]);
    let tree = inner([(1, inner([])), (2, page), (4, leaf(&[1])), (200, inner([]))]);
    let mut store = Store::new(8, &[(0, [2, 3, 9]), (1, [4, 4, 4])], tree);
    // the leaf of page 0 and the node above it go
    store.drop(0, &inner([(1, inner([])), (4, leaf(&[1])), (200, inner([]))]));
    store.drop(1, &inner([(1, inner([])), (200, inner([]))]));
}

/// Before and behind the leaf in its chain, and in other chains.
#[test]
fn a_childless_sibling_keeps_the_parent() {
    for beside in [0, 1, 4, 9, 31, 32, 200, 255] {
        let tree = |page: Option<(u8, Node)>| inner([(2, Node::Inner(page.into_iter().chain([(beside, inner([]))]).collect()))]);
        let mut store = Store::new(5, &[(0, [2, 3, 9])], tree(Some((3, leaf(&[0])))));
        store.drop(0, &tree(None));
        store.add(0, [2, 3, 1], &tree(Some((3, leaf(&[0])))));
        store.drop(0, &tree(None));
    }
}

/// A childless node further down keeps all that is above it, and nothing else.
#[test]
fn one_further_down_keeps_what_is_above() {
    let deep = (1, inner([(3, inner([]))]));
    let tree = inner([deep.clone(), (4, inner([(9, inner([(2, leaf(&[0]))]))]))]);
    let mut store = Store::new(6, &[(0, [4, 9, 2])], tree);
    store.drop(0, &inner([deep.clone()]));
    store.add(0, [4, 9, 2], &inner([deep.clone(), (4, leaf(&[0]))]));
    store.drop(0, &inner([deep]));
}

#[test]
fn an_add_gives_it_a_child_and_the_drop_takes_it_out() {
    let beside = (4, leaf(&[1]));
    let mut store = Store::new(4, &[(1, [4, 4, 4])], inner([(1, inner([])), beside.clone()]));
    store.add(2, [1, 2, 3], &inner([(1, inner([(2, leaf(&[2]))])), beside.clone()]));
    store.drop(2, &inner([beside]));
    store.drop(1, &leaf(&[]));
}

#[test]
fn with_two_pages_it_goes_with_the_second() {
    let tree = |children: Node| inner([(1, children)]);
    let mut store = Store::new(5, &[], tree(inner([])));
    store.add(0, [1, 2, 3], &tree(inner([(2, leaf(&[0]))])));
    store.add(1, [1, 9, 3], &tree(inner([(2, leaf(&[0])), (9, leaf(&[1]))])));
    store.drop(0, &tree(inner([(9, leaf(&[1]))])));
    store.drop(1, &leaf(&[]));
}

/// A chain of them, to the greatest level that an inner node may have.
#[test]
fn a_chain_of_them() {
    let tree = |last: Node| inner([(1, inner([(2, last)]))]);
    let mut store = Store::new(4, &[], tree(inner([])));
    // beside the chain: it stays
    store.add(0, [1, 9, 9], &inner([(1, inner([(2, inner([])), (9, leaf(&[0]))]))]));
    store.drop(0, &tree(inner([])));
    // below it: it goes
    store.add(0, [1, 2, 3], &tree(inner([(3, leaf(&[0]))])));
    store.drop(0, &leaf(&[]));
}

#[test]
fn a_childless_root() {
    let mut store = Store::new(2, &[], inner([]));
    store.add(0, [1, 2, 3], &inner([(1, leaf(&[0]))]));
    store.no_room(1, [2, 2, 2]);
    store.drop(0, &leaf(&[]));
    // now it takes a page itself
    store.add(0, [1, 2, 3], &leaf(&[0]));
    store.drop(0, &leaf(&[]));
    // one node has no room for a child
    Store::new(1, &[], inner([])).no_room(0, [1, 2, 3]);
}

#[test]
fn they_take_room() {
    let mut store = Store::new(3, &[(1, [4, 4, 4])], inner([(1, inner([])), (4, leaf(&[1]))]));
    store.no_room(0, [1, 2, 3]);
    store.no_room(0, [9, 9, 9]);
    store.drop(1, &inner([(1, inner([]))]));
    store.add(0, [1, 2, 3], &inner([(1, inner([(2, leaf(&[0]))]))]));
    store.no_room(1, [9, 9, 9]);
    store.drop(0, &leaf(&[]));
    store.add(0, [1, 2, 3], &leaf(&[0]));
    store.add(1, [9, 9, 9], &inner([(1, leaf(&[0])), (9, leaf(&[1]))]));
}

/// A node by its block and path.
type Place = (usize, Vec<u8>);

/// The inner nodes, and which of them have no children.
#[derive(Default)]
struct Inner {
    all: BTreeSet<Place>,
    childless: BTreeSet<Place>,
}

impl Inner {
    fn of(trees: &[Node]) -> Self {
        let mut found = Inner::default();
        trees.iter().enumerate().for_each(|(j, tree)| found.visit(j, tree, &mut Vec::new()));
        found
    }

    fn visit(&mut self, j: usize, node: &Node, path: &mut Vec<u8>) {
        let Node::Inner(children) = node else { return };
        self.all.insert((j, path.clone()));
        if children.is_empty() {
            self.childless.insert((j, path.clone()));
        }
        for (&byte, child) in children {
            path.push(byte);
            self.visit(j, child, path);
            path.pop();
        }
    }
}

/// A store as it was before F-2: most of its pages are dropped.
fn earlier_store(random: &mut Random, s: &Settings, sketches: &Sketches) -> Index {
    let mut plain = Index::open(s.clone());
    for _ in 0..random.below(80) {
        let page = random.below(u64::from(s.pages)) as u32;
        plain.add(page, random.below(8) as u32, &sketches.near(random, 3));
    }
    let pages: Vec<u32> = plain.rows.keys().copied().collect();
    let stay = random.below(4);
    for page in pages.into_iter().filter(|_| random.below(4) >= stay) {
        assert_eq!(plain.drop_before(page), 0);
    }
    for _ in 0..random.below(12) {
        plain.join(random.below(3) as u32, random.below(4) as u32);
        plain.grant(random.below(4) as u32, random.below(8) as u32);
    }
    plain
}

#[derive(Default, Debug)]
struct Counts {
    childless: usize,
    childless_roots: usize,
    pruned: usize,
    given_a_child: usize,
    taken_out: usize,
    refused: usize,
    listed: usize,
}

/// Calls on an earlier store. A drop leaves the childless nodes that there are and makes none; an add gives a child to those on its way.
fn calls_on(random: &mut Random, t: &mut Tables, plain: &mut Index, sketches: &Sketches, counts: &mut Counts) {
    let s = plain.settings.clone();
    let mut lists = Lists::new(s.pages as usize);
    let mut given: BTreeSet<Place> = BTreeSet::new();
    for _ in 0..40 {
        let (page, x) = (random.below(u64::from(s.pages)) as u32, sketches.near(random, 3));
        let before = Inner::of(&whole(t, &s));
        match random.below(5) {
            0 | 1 => {
                assert_eq!(calls::drop(&mut t.lend(), page), plain.drop(page));
                let now = Inner::of(&whole(t, &s));
                assert_eq!(now.childless, before.childless, "drop {page}, {s:?}");
                counts.pruned += before.all.len() - now.all.len();
                counts.taken_out += given.difference(&now.all).count();
                given.retain(|place| now.all.contains(place));
            }
            2 | 3 => {
                let number = calls::add(&mut t.lend(), page, 3, &x);
                assert_eq!(number, plain.add(page, 3, &x), "add {page} {x:?} {s:?}");
                let now = Inner::of(&whole(t, &s));
                let on_the_way = |(j, path): &Place| number == 0 && plain.packed(*j, &x).starts_with(path);
                let stay: BTreeSet<Place> = before.childless.iter().filter(|&place| !on_the_way(place)).cloned().collect();
                assert_eq!(now.childless, stay, "add {page} {x:?} {s:?}");
                counts.given_a_child += before.childless.len() - stay.len();
                counts.refused += usize::from(number == 12);
                given.extend(before.childless.into_iter().filter(on_the_way));
            }
            _ => counts.listed += searched(t, plain, &mut lists, random.below(3) as u32, random.below(6) as u32, &x),
        }
        assert_eq!(whole(t, &s), plain.trees);
    }
}

#[test]
fn earlier_stores() {
    let mut random = Random::new(91);
    let mut counts = Counts::default();
    for round in 0..2_000 {
        let s = if round % 2 == 0 { small_settings(&mut random) } else { deep_settings(&mut random) };
        let sketches = Sketches::new(&mut random, s.b, s.m, 3);
        let mut plain = earlier_store(&mut random, &s, &sketches);
        let mut t = written(&plain);
        let found = Inner::of(&plain.trees);
        counts.childless += found.childless.len();
        counts.childless_roots += found.childless.iter().filter(|(_, path)| path.is_empty()).count();
        assert!(sound(&t, &s) && calls::check(&mut t.lend()) == (0, true), "{s:?}");
        calls_on(&mut random, &mut t, &mut plain, &sketches, &mut counts);
        assert!(sound(&t, &s) && calls::check(&mut t.lend()) == (0, true), "{s:?}");
    }
    let Counts { childless, childless_roots, pruned, given_a_child, taken_out, refused, listed } = counts;
    assert!(childless > 3_000 && childless_roots > 300 && refused > 2_000 && listed > 4_000, "{counts:?}");
    assert!(pruned > 3_000 && given_a_child > 1_500 && taken_out > 400, "{counts:?}");
}
