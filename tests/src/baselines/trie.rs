//! A pointer trie for each block, by the library's rules of insertion and removal and its thresholds: an inner node is an array of 256
//! children, a leaf a contiguous list of pages. Inner nodes that are given up are used again.
use super::lists::Lists;
use super::packed::{bits, shaped, Found, Packed, Test};
use super::{Hits, Way};

/// A child: none, an inner node by its index, or a leaf by where its list stands.
const NONE: u32 = 0;
const LEAF: u32 = 1 << 31;

/// The exclusive ors of two bytes, by how many groups they differ in.
struct Masks {
    all: Vec<(u8, u32)>,
    /// how many differ in at most so many groups
    within: [usize; 9],
}

impl Masks {
    fn new(width: usize) -> Self {
        let groups = |v: u32| (0..8 / width).filter(|i| v >> (width * i) & ((1 << width) - 1) != 0).count() as u32;
        let mut all: Vec<(u8, u32)> = (0..256).map(|v| (v as u8, groups(v))).collect();
        all.sort_by_key(|mask| mask.1);
        Masks { within: std::array::from_fn(|d| all.iter().filter(|mask| mask.1 <= d as u32).count()), all }
    }

    fn within(&self, radius: u32) -> &[(u8, u32)] {
        &self.all[..self.within[radius.min(8) as usize]]
    }
}

/// Of an inner node: which child of which node it is, and how many children it has.
struct Above {
    node: u32,
    child: u8,
    children: u16,
}

pub struct Pointers {
    packed: Packed,
    live: Vec<bool>,
    thresholds: Vec<u16>,
    /// where the bits of each block begin and end in a row
    blocks: Vec<(usize, usize)>,
    /// node 0 is no inner node: it has the roots
    nodes: Vec<[u32; 256]>,
    above: Vec<Above>,
    /// inner nodes given up, without children
    free: Vec<u32>,
    lists: Lists,
    masks: Masks,
    found: Found,
}

impl Pointers {
    pub fn new(b: u32, m: usize, q: usize, pages: usize, threshold: u16) -> Self {
        Self::with_thresholds(b, m, q, pages, vec![threshold; 64])
    }

    pub fn with_thresholds(b: u32, m: usize, q: usize, pages: usize, thresholds: Vec<u16>) -> Self {
        let packed = Packed::new(b, m, pages);
        let mut lists = Lists::default();
        let mut roots = [NONE; 256];
        roots[..q].fill_with(|| LEAF | lists.empty());
        Pointers {
            live: vec![false; pages],
            thresholds,
            blocks: (0..q).map(|j| packed.block(q, j)).collect(),
            nodes: vec![roots],
            above: vec![Above { node: 0, child: 0, children: q as u16 }],
            free: Vec::new(),
            lists,
            masks: Masks::new(packed.width),
            found: Found::new(pages),
            packed,
        }
    }

    /// The byte of a row that stands at `start`, of a block that ends at `end`.
    #[inline(always)]
    fn byte(row: &[u64], start: usize, end: usize) -> usize {
        bits(row, start, (end - start).min(8)) as usize
    }

    /// The place of a page's leaf in a block: the node above, the child there, and where its next byte stands in the row.
    fn place(&self, j: usize, page: usize) -> (usize, usize, usize) {
        let (mut start, end) = self.blocks[j];
        let (mut node, mut child) = (0, j);
        loop {
            let below = self.nodes[node][child];
            if below == NONE || below & LEAF != 0 {
                return (node, child, start);
            }
            node = below as usize;
            child = Self::byte(self.packed.row(page), start, end);
            start += 8;
        }
    }

    /// A page is put into a leaf, which may be there or not.
    fn put(&mut self, node: usize, child: usize, page: u16) -> u32 {
        let at = match self.nodes[node][child] {
            NONE => {
                self.above[node].children += 1;
                self.lists.one(page)
            }
            leaf => self.lists.push(leaf & !LEAF, page),
        };
        self.nodes[node][child] = LEAF | at;
        at
    }

    /// An inner node without children, to be this child of a node.
    fn inner(&mut self, node: usize, child: usize) -> usize {
        let above = Above { node: node as u32, child: child as u8, children: 0 };
        if let Some(inner) = self.free.pop() {
            self.above[inner as usize] = above;
            return inner as usize;
        }
        self.nodes.push([NONE; 256]);
        self.above.push(above);
        self.nodes.len() - 1
    }

    /// The pages of a leaf go to leaves below a new inner node in its place, by the byte at `start`.
    fn split(&mut self, node: usize, child: usize, at: u32, start: usize, end: usize) {
        let inner = self.inner(node, child);
        self.nodes[node][child] = inner as u32;
        for i in 0..self.lists.pages(at).len() {
            let page = self.lists.page(at, i);
            let child = Self::byte(self.packed.row(page.into()), start, end);
            self.put(inner, child, page);
        }
        self.lists.give_up(at);
    }

    /// A child is no more: so is each inner node above that has lost its last child by this. A root so emptied is a leaf without pages.
    fn prune(&mut self, mut node: usize, mut child: usize) {
        while node != 0 {
            self.nodes[node][child] = NONE;
            let above = &mut self.above[node];
            above.children -= 1;
            if above.children > 0 {
                return;
            }
            self.free.push(node as u32);
            (node, child) = (above.node as usize, usize::from(above.child));
        }
        self.nodes[0][child] = LEAF | self.lists.empty();
    }

    pub fn add(&mut self, page: u32, class: u8, sketch: &[u8]) -> bool {
        let p = page as usize;
        let fits = sketch.len() == self.packed.m && sketch.iter().all(|&c| u32::from(c) < 1 << self.packed.b);
        let blank = || sketch.iter().all(|&c| c == 0);
        if class > 63 || p >= self.live.len() || self.live[p] || !fits || blank() {
            return false;
        }
        self.packed.set(p, class, sketch);
        self.live[p] = true;
        for j in 0..self.blocks.len() {
            let (node, child, start) = self.place(j, p);
            let at = self.put(node, child, page as u16);
            let (first, end) = self.blocks[j];
            if start < end && self.lists.pages(at).len() > usize::from(self.thresholds[(start - first) / 8]) {
                self.split(node, child, at, start, end);
            }
        }
        true
    }

    /// A leaf whose only page this is goes, unless it is a root, and so do the inner nodes above that it leaves without children.
    pub fn drop(&mut self, page: u32) -> bool {
        let p = page as usize;
        if p >= self.live.len() || !self.live[p] {
            return false;
        }
        for j in 0..self.blocks.len() {
            let (node, child, _) = self.place(j, p);
            let at = self.nodes[node][child] & !LEAF;
            if node != 0 && self.lists.pages(at).len() == 1 {
                self.lists.give_up(at);
                self.prune(node, child);
            } else {
                self.nodes[node][child] = LEAF | self.lists.remove(at, page as u16);
            }
        }
        self.live[p] = false;
        true
    }

    fn search_of<const WIDTH: usize, const WORDS: usize>(&mut self, open: u64, radius: u32, query: &[u8], out: &mut Hits) -> usize {
        let test = Test::new(&self.packed, &mut self.found, open, radius, query, out);
        let mut walk = Walk::<WIDTH, WORDS> { nodes: &self.nodes, lists: &self.lists, masks: &self.masks, test };
        for (j, &(start, end)) in self.blocks.iter().enumerate() {
            walk.visit(self.nodes[0][j], start, end, radius / self.blocks.len() as u32);
        }
        walk.test.tested
    }

    /// How many inner nodes are in use.
    #[cfg(test)]
    pub(super) fn inner_nodes(&self) -> usize {
        self.nodes.len() - 1 - self.free.len()
    }

    #[cfg(test)]
    pub(super) fn tree(&self, j: usize) -> crate::trees::Node {
        self.tree_at(self.nodes[0][j])
    }

    /// As the plain trees have it, with bytes of b bits a symbol.
    #[cfg(test)]
    fn tree_at(&self, node: u32) -> crate::trees::Node {
        use crate::trees::Node;
        if node & LEAF != 0 {
            return Node::Leaf(self.lists.pages(node & !LEAF).iter().map(|&p| p.into()).collect());
        }
        let (b, width) = (self.packed.b as usize, self.packed.width);
        let byte = |v: usize| (0..8 / width).fold(0, |w, i| w | (v >> (i * width) & ((1 << width) - 1)) << (i * b)) as u8;
        let children = self.nodes[node as usize].iter().enumerate().filter(|(_, &below)| below != NONE);
        Node::Inner(children.map(|(v, &below)| (byte(v), self.tree_at(below))).collect())
    }
}

impl Way for Pointers {
    fn search(&mut self, open: u64, radius: u32, query: &[u8], out: &mut Hits) -> usize {
        let tested = shaped!(self.packed, self.search_of(open, radius, query, out));
        self.found.drain(out);
        tested
    }
}

struct Walk<'a, const WIDTH: usize, const WORDS: usize> {
    nodes: &'a [[u32; 256]],
    lists: &'a Lists,
    masks: &'a Masks,
    test: Test<'a, WIDTH, WORDS>,
}

impl<const WIDTH: usize, const WORDS: usize> Walk<'_, WIDTH, WORDS> {
    /// At a node whose next byte stands at `start`, with so much of the radius left: only the children that are near enough are looked at.
    fn visit(&mut self, node: u32, start: usize, end: usize, left: u32) {
        if left == 0 {
            return self.descend(node, start, end);
        }
        if node & LEAF != 0 {
            return self.test.pages(self.lists.pages(node & !LEAF));
        }
        let (nodes, masks) = (self.nodes, self.masks);
        let byte = Pointers::byte(&self.test.query, start, end);
        for &(mask, d) in masks.within(left) {
            let below = nodes[node as usize][byte ^ usize::from(mask)];
            if below != NONE {
                self.visit(below, start + 8, end, left - d);
            }
        }
    }

    /// Nothing of the radius is left.
    #[inline(always)]
    fn descend(&mut self, mut node: u32, mut start: usize, end: usize) {
        while node != NONE && node & LEAF == 0 {
            node = self.nodes[node as usize][Pointers::byte(&self.test.query, start, end)];
            start += 8;
        }
        if node != NONE {
            self.test.pages(self.lists.pages(node & !LEAF));
        }
    }
}
