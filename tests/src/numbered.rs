//! The trees of an index with the number that stands in each leaf, right or wrong, and what adds and drops make of them: the number decides
//! whether a leaf is split, and nothing else. Written from docs/LAYOUT.md.
use crate::plain::packed_length;
use crate::state::{self, State, MOST};
use crate::tables::{Settings, Tables};
use crate::trees::{read_free, Index, Row};
use std::collections::{BTreeMap, BTreeSet};

/// A node: a leaf with its pages and its number, or inner with a child for each byte.
#[derive(Clone, Debug, PartialEq, Eq)]
pub enum Node {
    Leaf { pages: BTreeSet<u32>, number: u32 },
    Inner(BTreeMap<u8, Node>),
}

/// One block: how many bytes a page has there, and which.
struct Block<'a> {
    len: usize,
    thresholds: &'a [u16],
    bytes: &'a dyn Fn(u32) -> Vec<u8>,
}

impl Node {
    fn empty() -> Self {
        Node::Leaf { pages: BTreeSet::new(), number: 0 }
    }

    pub fn count(&self) -> usize {
        match self {
            Node::Leaf { .. } => 1,
            Node::Inner(children) => 1 + children.values().map(Node::count).sum::<usize>(),
        }
    }

    /// The pages of its leaves.
    pub fn pages(&self) -> BTreeSet<u32> {
        match self {
            Node::Leaf { pages, .. } => pages.clone(),
            Node::Inner(children) => children.values().flat_map(Node::pages).collect(),
        }
    }

    /// Has each of its leaves the number of its pages?
    pub fn is_right(&self) -> bool {
        match self {
            Node::Leaf { pages, number } => pages.len() == *number as usize,
            Node::Inner(children) => children.values().all(Node::is_right),
        }
    }

    /// How many nodes the add of a page is said to need, before it is put in: a leaf is to be split where its number is not below the
    /// threshold.
    fn needs(&self, level: usize, page: u32, block: &Block) -> usize {
        let byte = |p: u32| (block.bytes)(p)[level];
        match self {
            Node::Inner(children) => match children.get(&byte(page)) {
                Some(child) => child.needs(level + 1, page, block),
                None => 1 + usize::from(level + 1 < block.len && block.thresholds[level + 1] == 0),
            },
            Node::Leaf { pages, number } if level < block.len && u32::from(block.thresholds[level]) <= *number => {
                pages.iter().copied().chain([page]).map(byte).collect::<BTreeSet<u8>>().len()
            }
            Node::Leaf { .. } => 0,
        }
    }

    fn put(&mut self, level: usize, page: u32, block: &Block) {
        let byte = |p: u32| (block.bytes)(p)[level];
        match self {
            Node::Inner(children) => children.entry(byte(page)).or_insert_with(Node::empty).put(level + 1, page, block),
            Node::Leaf { pages, number } => {
                pages.insert(page);
                *number = MOST.min(*number + 1);
                if level < block.len && u32::from(block.thresholds[level]) < *number {
                    let mut below: BTreeMap<u8, BTreeSet<u32>> = BTreeMap::new();
                    pages.iter().for_each(|&p| assert!(below.entry(byte(p)).or_default().insert(p)));
                    let leaf = |pages: BTreeSet<u32>| Node::Leaf { number: pages.len() as u32, pages };
                    *self = Node::Inner(below.into_iter().map(|(byte, pages)| (byte, leaf(pages))).collect());
                }
            }
        }
    }

    /// A page leaves its leaf. Says whether the node is to go.
    fn take(&mut self, bytes: &[u8], page: u32) -> bool {
        match self {
            Node::Leaf { pages, number } => {
                assert!(pages.remove(&page), "page {page} is not in its leaf");
                *number = number.saturating_sub(1);
                pages.is_empty()
            }
            Node::Inner(children) => {
                let gone = children.get_mut(&bytes[0]).unwrap().take(&bytes[1..], page);
                if gone {
                    children.remove(&bytes[0]);
                }
                gone && children.is_empty()
            }
        }
    }
}

/// The rows and rights of an index, whose own trees are not used, and its trees with their numbers.
#[derive(Clone)]
pub struct Model {
    pub index: Index,
    pub trees: Vec<Node>,
}

impl Model {
    /// The index whose trees these tables hold.
    pub fn new(index: &Index, t: &Tables) -> Self {
        Model { index: index.clone(), trees: whole(t, &index.settings) }
    }

    /// An add that passes the questions before 12.
    pub fn add(&mut self, page: u32, class: u32, sketch: &[u8]) -> u32 {
        let (s, mut rows) = (&self.index.settings, self.index.rows.clone());
        assert!(rows.insert(page, Row { class, sketch: sketch.to_vec() }).is_none());
        let (mut trees, mut needed) = (self.trees.clone(), 0);
        for (j, tree) in trees.iter_mut().enumerate() {
            let bytes = |p: u32| self.index.packed(j, &rows[&p].sketch);
            let len = packed_length(s.b, self.index.block(j).1 as u32);
            let block = Block { len, thresholds: &s.thresholds, bytes: &bytes };
            needed += tree.needs(0, page, &block);
            tree.put(0, page, &block);
        }
        if needed + total(&self.trees) > s.nodes as usize {
            return 12;
        }
        assert!(total(&trees) <= total(&self.trees) + needed);
        (self.index.rows, self.trees) = (rows, trees);
        0
    }

    /// The drop of a live page.
    pub fn drop(&mut self, page: u32) -> u32 {
        let row = self.index.rows.remove(&page).unwrap();
        for (j, tree) in self.trees.iter_mut().enumerate() {
            if tree.take(&self.index.packed(j, &row.sketch), page) {
                *tree = Node::empty();
            }
        }
        0
    }

    pub fn is_right(&self) -> bool {
        self.trees.iter().all(Node::is_right)
    }
}

pub fn total(trees: &[Node]) -> usize {
    trees.iter().map(Node::count).sum()
}

/// A leaf in tables: its node, level, number and pages, the first of the chain first.
#[derive(Debug)]
pub struct Leaf {
    pub node: usize,
    pub level: usize,
    pub number: u32,
    pub pages: Vec<u32>,
}

/// What is met in the tables: the nodes, and the leaves among them.
#[derive(Default)]
struct Met {
    nodes: Vec<usize>,
    leaves: Vec<Leaf>,
}

fn read(t: &Tables, s: &Settings, j: usize, x: usize, level: usize, met: &mut Met) -> Node {
    let (n, p) = (s.nodes as usize, s.pages as usize);
    met.nodes.push(x);
    match state::read(t.nodes[n + x]) {
        State::Free => panic!("a free node in a tree"),
        State::Leaf { number, first } => {
            let (mut pages, mut link) = (Vec::new(), first as usize);
            while link != 0 {
                pages.push(link as u32 - 1);
                assert!(pages.len() <= p, "pages without end");
                link = t.pages[(2 + j) * p + link - 1] as usize;
            }
            let node = Node::Leaf { pages: pages.iter().copied().collect(), number };
            met.leaves.push(Leaf { node: x, level, number, pages });
            node
        }
        State::Inner => {
            let mut children = BTreeMap::new();
            for &head in &t.nodes[2 * n + 8 * x..2 * n + 8 * x + 8] {
                let mut link = head as usize;
                while link != 0 {
                    let word = t.nodes[link - 1];
                    assert!(children.insert((word >> 19) as u8, read(t, s, j, link - 1, level + 1, met)).is_none(), "a byte twice");
                    link = (word & 0x7_ffff) as usize;
                }
            }
            Node::Inner(children)
        }
    }
}

fn read_all(t: &Tables, s: &Settings) -> (Vec<Node>, Met) {
    let mut met = Met::default();
    let trees = (0..s.q as usize).map(|j| read(t, s, j, j, 0, &mut met)).collect();
    read_free(t, s, &mut met.nodes);
    met.nodes.sort_unstable();
    assert!(met.nodes.iter().copied().eq(0..s.nodes as usize), "a node twice, or in no tree and not free");
    (trees, met)
}

/// The trees of tables that are sound but for their numbers.
pub fn whole(t: &Tables, s: &Settings) -> Vec<Node> {
    read_all(t, s).0
}

/// All leaves of such tables.
pub fn leaves(t: &Tables, s: &Settings) -> Vec<Leaf> {
    read_all(t, s).1.leaves
}
