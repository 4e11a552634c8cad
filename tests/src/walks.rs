//! What a search meets and measures on any tables, and where question 14 refuses it: written from document 01 and docs/LAYOUT.md, by
//! recursion.
//! One budget of nodes for the whole search, one of pages for each block.
use crate::plain::{pack, signature};
use crate::state::{self, State};
use crate::tables::{Settings, Tables};

struct Walk<'a> {
    t: &'a Tables,
    b: u32,
    nodes: usize,
    pages: usize,
    /// where the links of this block's pages begin
    next: usize,
    bytes: Vec<u8>,
    nodes_left: usize,
    pages_left: usize,
    met: Vec<bool>,
}

/// How many groups of b bits of a byte are not zero.
fn groups(b: u32, v: u8) -> u32 {
    (0..8 / b).filter(|i| u32::from(v) >> (i * b) & ((1 << b) - 1) != 0).count() as u32
}

impl Walk<'_> {
    fn state(&self, x: usize) -> State {
        state::read(self.t.nodes[self.nodes + x])
    }

    fn head(&self, x: usize, g: usize) -> usize {
        (self.t.nodes[2 * self.nodes + 8 * x + g] % (1 << 19)) as usize
    }

    /// The child at a link: reading its chain word draws on the budget.
    fn read(&mut self, link: usize) -> Option<(usize, u32, usize)> {
        self.nodes_left = self.nodes_left.checked_sub(1)?;
        let x = link - 1;
        if x >= self.nodes {
            return None;
        }
        let w = self.t.nodes[x];
        Some((x, w >> 19, (w % (1 << 19)) as usize))
    }

    /// By the links alone: the number in the leaf is not looked at.
    fn leaf(&mut self, first: u32) -> Option<()> {
        let mut link = first as usize;
        while link != 0 {
            self.pages_left = self.pages_left.checked_sub(1)?;
            if link > self.pages {
                return None;
            }
            self.met[link - 1] = true;
            link = self.t.pages[self.next + link - 1] as usize;
        }
        Some(())
    }

    /// At node x on a level, with so much of the radius left. A free node and an inner one at the packed length are out of order.
    fn node(&mut self, x: usize, level: usize, radius: u32) -> Option<()> {
        match self.state(x) {
            State::Free => None,
            State::Inner if level == self.bytes.len() => None,
            State::Inner if radius == 0 => self.own_byte(x, level),
            State::Inner => self.children(x, level, radius),
            State::Leaf { first, .. } => self.leaf(first),
        }
    }

    /// Nothing of the radius is left: only the query's own byte leads on, and a chain is passed as far as it.
    fn own_byte(&mut self, x: usize, level: usize) -> Option<()> {
        let y = u32::from(self.bytes[level]);
        let mut link = self.head(x, y as usize / 32);
        while link != 0 {
            let (child, byte, next) = self.read(link)?;
            if byte == y {
                return self.node(child, level + 1, 0);
            }
            if byte > y {
                return Some(());
            }
            link = next;
        }
        Some(())
    }

    fn children(&mut self, x: usize, level: usize, radius: u32) -> Option<()> {
        for g in 0..8 {
            let mut link = self.head(x, g);
            while link != 0 {
                let (child, byte, next) = self.read(link)?;
                let d = groups(self.b, byte as u8 ^ self.bytes[level]);
                if d <= radius {
                    self.node(child, level + 1, radius - d)?;
                }
                link = next;
            }
        }
        Some(())
    }
}

/// How far apart two signatures are: the groups of their four bytes that differ.
fn signature_distance(b: u32, s: u32, t: u32) -> u32 {
    (s ^ t).to_le_bytes().iter().map(|&v| groups(b, v)).sum()
}

/// The pages met, in no block twice, but those whose stored signature is further than the radius from the query's; or 14.
pub fn met(t: &Tables, s: &Settings, radius: u32, query: &[u8]) -> Option<Vec<bool>> {
    let (q, m) = (s.q as usize, s.m as usize);
    let (nodes, pages) = (s.nodes as usize, s.pages as usize);
    let mut walk = Walk { t, b: s.b, nodes, pages, next: 0, bytes: vec![], nodes_left: nodes - q, pages_left: 0, met: vec![false; pages] };
    let mut start = 0;
    for j in 0..q {
        let length = m / q + usize::from(j < m % q);
        walk.bytes = pack(s.b, length as u32, &query[start..start + length]).unwrap();
        walk.next = (2 + j) * pages;
        walk.pages_left = pages;
        walk.node(j, 0, radius / s.q)?;
        start += length;
    }
    let own = signature(s.b, query);
    let near = |page: usize| signature_distance(s.b, t.pages[pages + page], own) <= radius;
    Some((0..pages).map(|page| walk.met[page] && near(page)).collect())
}
