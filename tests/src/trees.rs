//! The index of document 01 as plain Rust would keep it: rows, pairs, and an explicit tree for each block.
//! Written from the document and not from the proved code.
use crate::plain::{self, nearest_first, Hit};
use crate::state::{self, State, FREE_NODE};
use crate::tables::{Settings, Tables, FREE};
use std::collections::{BTreeMap, BTreeSet};

/// A node of a block's tree: a leaf with its pages, or inner with a child for each byte.
#[derive(Clone, Debug, PartialEq, Eq)]
pub enum Node {
    Leaf(BTreeSet<u32>),
    Inner(BTreeMap<u8, Node>),
}

impl Node {
    pub fn fresh() -> Self {
        Node::Leaf(BTreeSet::new())
    }

    pub fn count(&self) -> usize {
        match self {
            Node::Leaf(_) => 1,
            Node::Inner(children) => 1 + children.values().map(Node::count).sum::<usize>(),
        }
    }
}

/// One block: the packed length, and the packed bytes of each page that stands in its tree.
struct Grow<'a> {
    len: usize,
    thresholds: &'a [u16],
    bytes: &'a dyn Fn(u32) -> Vec<u8>,
}

impl Grow<'_> {
    fn put(&self, node: &mut Node, level: usize, page: u32) {
        match node {
            Node::Inner(children) => {
                let byte = (self.bytes)(page)[level];
                self.put(children.entry(byte).or_insert_with(Node::fresh), level + 1, page);
            }
            Node::Leaf(pages) => {
                pages.insert(page);
                if level < self.len && pages.len() > usize::from(self.thresholds[level]) {
                    let mut children = BTreeMap::new();
                    for &p in pages.iter() {
                        match children.entry((self.bytes)(p)[level]).or_insert_with(Node::fresh) {
                            Node::Leaf(below) => below.insert(p),
                            Node::Inner(_) => unreachable!(),
                        };
                    }
                    *node = Node::Inner(children);
                }
            }
        }
    }
}

/// A page leaves its leaf. Says whether the node is to go: an emptied leaf, or an inner node that has lost its last child by this
/// (document 02, F-2). Without `prune` inner nodes stay, as they did before.
fn take(node: &mut Node, bytes: &[u8], page: u32, prune: bool) -> bool {
    match node {
        Node::Leaf(pages) => {
            pages.remove(&page);
            pages.is_empty()
        }
        Node::Inner(children) => {
            let gone = children.get_mut(&bytes[0]).is_some_and(|child| take(child, &bytes[1..], page, prune));
            if gone {
                children.remove(&bytes[0]);
            }
            gone && prune && children.is_empty()
        }
    }
}

#[derive(Clone)]
pub struct Row {
    pub class: u32,
    pub sketch: Vec<u8>,
}

/// What the ledger of document 01 holds, and the trees of demand 2.
#[derive(Clone)]
pub struct Index {
    pub settings: Settings,
    pub rows: BTreeMap<u32, Row>,
    pub members: BTreeSet<(u32, u32)>,
    pub grants: BTreeSet<(u32, u32)>,
    pub trees: Vec<Node>,
}

impl Index {
    /// After an accepted opening.
    pub fn open(settings: Settings) -> Self {
        let trees = vec![Node::fresh(); settings.q as usize];
        Index { settings, rows: BTreeMap::new(), members: BTreeSet::new(), grants: BTreeSet::new(), trees }
    }

    /// The start and length of block j.
    pub fn block(&self, j: usize) -> (usize, usize) {
        let (m, q) = (self.settings.m as usize, self.settings.q as usize);
        let length = |i: usize| m / q + usize::from(i < m % q);
        ((0..j).map(length).sum(), length(j))
    }

    pub fn packed(&self, j: usize, sketch: &[u8]) -> Vec<u8> {
        let (start, n) = self.block(j);
        plain::pack(self.settings.b, n as u32, &sketch[start..start + n]).unwrap()
    }

    /// How many nodes the trees have.
    pub fn total(trees: &[Node]) -> usize {
        trees.iter().map(Node::count).sum()
    }

    fn sketch_number(&self, sketch: &[u8]) -> u32 {
        if sketch.len() != self.settings.m as usize {
            return 10;
        }
        if sketch.iter().any(|&s| u32::from(s) >= 1 << self.settings.b) {
            return 11;
        }
        0
    }

    pub fn add(&mut self, page: u32, class: u32, sketch: &[u8]) -> u32 {
        if class >= 64 {
            return 7;
        }
        if page >= self.settings.pages {
            return 8;
        }
        if self.rows.contains_key(&page) {
            return 9;
        }
        let number = self.sketch_number(sketch);
        if number != 0 {
            return number;
        }
        if sketch.iter().all(|&s| s == 0) {
            return 15;
        }
        self.put(page, class, sketch)
    }

    /// An add past all questions but 12, of a blank page too: stores from before question 15 have such pages.
    pub fn put(&mut self, page: u32, class: u32, sketch: &[u8]) -> u32 {
        let mut rows = self.rows.clone();
        rows.insert(page, Row { class, sketch: sketch.to_vec() });
        let mut trees = self.trees.clone();
        for (j, tree) in trees.iter_mut().enumerate() {
            let bytes = |p: u32| self.packed(j, &rows[&p].sketch);
            let (_, n) = self.block(j);
            let grow = Grow { len: plain::packed_length(self.settings.b, n as u32), thresholds: &self.settings.thresholds, bytes: &bytes };
            grow.put(tree, 0, page);
        }
        if Index::total(&trees) > self.settings.nodes as usize {
            return 12;
        }
        self.rows = rows;
        self.trees = trees;
        0
    }

    pub fn drop(&mut self, page: u32) -> u32 {
        self.strike(page, true)
    }

    /// A drop as it was before F-2: stores from that time have inner nodes without children.
    pub fn drop_before(&mut self, page: u32) -> u32 {
        self.strike(page, false)
    }

    /// The root stays: where it is to go it is a fresh tree.
    fn strike(&mut self, page: u32, prune: bool) -> u32 {
        if page >= self.settings.pages {
            return 8;
        }
        let Some(row) = self.rows.remove(&page) else { return 9 };
        for j in 0..self.trees.len() {
            let bytes = self.packed(j, &row.sketch);
            if take(&mut self.trees[j], &bytes, page, prune) {
                self.trees[j] = Node::fresh();
            }
        }
        0
    }

    pub fn join(&mut self, reader: u32, group: u32) -> u32 {
        if reader > 255 || group > 31 {
            return 7;
        }
        self.members.insert((reader, group));
        0
    }

    pub fn leave(&mut self, reader: u32, group: u32) -> u32 {
        if reader > 255 || group > 31 {
            return 7;
        }
        self.members.remove(&(reader, group));
        0
    }

    pub fn grant(&mut self, group: u32, class: u32) -> u32 {
        if group > 31 || class > 63 {
            return 7;
        }
        self.grants.insert((group, class));
        0
    }

    pub fn revoke(&mut self, group: u32, class: u32) -> u32 {
        if group > 31 || class > 63 {
            return 7;
        }
        self.grants.remove(&(group, class));
        0
    }

    pub fn opens(&self, reader: u32, class: u32) -> bool {
        (0..32).any(|g| self.members.contains(&(reader, g)) && self.grants.contains(&(g, class)))
    }

    /// By a plain scan: the pages called for with their distances, the nearest first, or the refusal's number.
    pub fn search(&self, reader: u32, radius: u32, query: &[u8]) -> Result<Vec<Hit>, u32> {
        if reader > 255 || radius > 64 {
            return Err(7);
        }
        match self.sketch_number(query) {
            0 => {}
            number => return Err(number),
        }
        let open = self.rows.iter().filter(|(_, row)| self.opens(reader, row.class));
        let measured = open.map(|(&page, row)| Hit { page, distance: plain::distance(&row.sketch, query) });
        Ok(nearest_first(measured.filter(|hit| hit.distance <= radius).collect()))
    }
}

/// The tree of block j as the words of the tables show it (docs/LAYOUT.md), and which nodes it has. Every leaf has the number of its pages.
pub fn read(tables: &Tables, s: &Settings, j: usize, seen: &mut Vec<usize>) -> Node {
    read_node(tables, s, j, j, seen)
}

fn read_node(tables: &Tables, s: &Settings, j: usize, x: usize, seen: &mut Vec<usize>) -> Node {
    let (n, p) = (s.nodes as usize, s.pages as usize);
    assert!(x < n, "a node past the capacity");
    seen.push(x);
    let state = state::read(tables.nodes[n + x]);
    let heads = &tables.nodes[2 * n + 8 * x..2 * n + 8 * x + 8];
    if let State::Leaf { number, first } = state {
        assert!(heads.iter().all(|&h| h == 0), "a leaf with children");
        let mut pages = BTreeSet::new();
        let mut link = first;
        while link != 0 {
            assert!(pages.insert(link - 1), "a page twice in a leaf");
            link = tables.pages[(2 + j) * p + link as usize - 1];
        }
        assert_eq!(number as usize, pages.len(), "a leaf whose number is not that of its pages");
        return Node::Leaf(pages);
    }
    assert_eq!(state, State::Inner, "a free node in a tree");
    let mut children = BTreeMap::new();
    for (g, &head) in heads.iter().enumerate() {
        let mut link = head;
        let mut least = 32 * g as u32;
        while link != 0 {
            let word = tables.nodes[link as usize - 1];
            let byte = word >> 19;
            assert!(least <= byte && byte < 32 * g as u32 + 32, "siblings out of order");
            least = byte + 1;
            children.insert(byte as u8, read_node(tables, s, j, link as usize - 1, seen));
            link = word & 0x7_ffff;
        }
    }
    Node::Inner(children)
}

/// The free nodes, in the order of their chain.
pub fn read_free(tables: &Tables, s: &Settings, seen: &mut Vec<usize>) {
    let n = s.nodes as usize;
    let mut link = tables.settings[FREE];
    while link != 0 {
        let x = link as usize - 1;
        assert!(x < n && tables.nodes[n + x] == FREE_NODE, "a free node in use");
        assert!(tables.nodes[2 * n + 8 * x..2 * n + 8 * x + 8].iter().all(|&h| h == 0), "a free node with children");
        seen.push(x);
        assert!(seen.len() <= n, "a node twice");
        link = tables.nodes[x] & 0x7_ffff;
    }
}

/// Every node once: in a tree or free.
pub fn whole(tables: &Tables, s: &Settings) -> Vec<Node> {
    let mut seen = Vec::new();
    let trees = (0..s.q as usize).map(|j| read(tables, s, j, &mut seen)).collect();
    read_free(tables, s, &mut seen);
    seen.sort_unstable();
    assert!(seen.iter().copied().eq(0..s.nodes as usize), "a node twice, or in no tree and not free");
    trees
}
