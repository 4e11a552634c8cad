//! When a store is sound (document 01, docs/LAYOUT.md), as plain Rust would test it. Written from the documents.
use crate::plain;
use crate::state::{self, State, FREE_NODE};
use crate::tables::{class_of, stale, Settings, Tables, FREE};

struct Walk<'a> {
    t: &'a Tables,
    s: &'a Settings,
    met: Vec<bool>,
}

impl Walk<'_> {
    fn heads(&self, x: usize) -> &[u32] {
        let n = self.s.nodes as usize;
        &self.t.nodes[2 * n + 8 * x..2 * n + 8 * x + 8]
    }

    /// The node that a word links to, which is met for the first time.
    fn meet(&mut self, link: u32) -> Option<usize> {
        let x = (link as usize).checked_sub(1)?;
        if x >= self.met.len() || self.met[x] {
            return None;
        }
        self.met[x] = true;
        Some(x)
    }

    /// The trie of a block below node x, at the end of a path; `pages` are the pages met.
    fn trie(&mut self, x: usize, path: &mut Vec<u8>, block: &Block, pages: &mut [bool]) -> Option<()> {
        let n = self.s.nodes as usize;
        match state::read(self.t.nodes[n + x]) {
            State::Free => None,
            State::Inner => self.children(x, path, block, pages),
            State::Leaf { number, first } => self.leaf(x, number, first, path, block, pages),
        }
    }

    /// The children of an inner node: a child that is a leaf has pages.
    fn children(&mut self, x: usize, path: &mut Vec<u8>, block: &Block, pages: &mut [bool]) -> Option<()> {
        if path.len() >= block.len {
            return None;
        }
        let n = self.s.nodes as usize;
        for g in 0..8 {
            let mut link = self.heads(x)[g];
            let mut least = 32 * g as u32;
            while link != 0 {
                let child = self.meet(link)?;
                let word = self.t.nodes[child];
                let byte = word >> 19;
                let empty = state::first(self.t.nodes[n + child]) == Some(0);
                if byte < least || byte >= 32 * g as u32 + 32 || !block.packs(path.len(), byte) || empty {
                    return None;
                }
                path.push(byte as u8);
                self.trie(child, path, block, pages)?;
                path.pop();
                least = byte + 1;
                link = word & 0x7_ffff;
            }
        }
        Some(())
    }

    /// A leaf has no children, its pages belong there, and they are as many as its number says.
    fn leaf(&self, x: usize, number: u32, first: u32, path: &[u8], block: &Block, pages: &mut [bool]) -> Option<()> {
        if self.heads(x).iter().any(|&h| h != 0) {
            return None;
        }
        let p = self.s.pages as usize;
        let (mut link, mut met) = (first, 0);
        while link != 0 {
            let page = link as usize - 1;
            if page >= p || pages[page] || self.t.pages[page] == 0 || !block.bytes[page].starts_with(path) {
                return None;
            }
            pages[page] = true;
            met += 1;
            link = self.t.pages[(2 + block.j) * p + page];
        }
        (met == number).then_some(())
    }
}

/// One block: its packed length, and the packed bytes of each page (of live ones only).
struct Block {
    j: usize,
    b: u32,
    symbols: usize,
    len: usize,
    bytes: Vec<Vec<u8>>,
}

impl Block {
    /// Can packing give this byte at this place?
    fn packs(&self, place: usize, byte: u32) -> bool {
        let z = (8 / self.b) as usize;
        let count = z.min(self.symbols - place * z);
        byte < 1 << (self.b as usize * count)
    }
}

pub fn sound(t: &Tables, s: &Settings) -> bool {
    sound_or_none(t, s).is_some()
}

fn sound_or_none(t: &Tables, s: &Settings) -> Option<()> {
    let (n, p, m, q) = (s.nodes as usize, s.pages as usize, s.m as usize, s.q as usize);
    let live: Vec<bool> = (0..p).map(|page| class_of(&t.pages, page).is_some()).collect();
    let row = |page: usize| &t.sketches[page * m..page * m + m];
    for page in (0..p).filter(|&page| live[page]) {
        if class_of(&t.pages, page)? > 63 || row(page).iter().any(|&c| u32::from(c) >= 1 << s.b) {
            return None;
        }
        if t.pages[p + page] != plain::signature(s.b, row(page)) {
            return None;
        }
    }
    if !stale(&t.settings).is_empty() {
        return None;
    }
    let mut walk = Walk { t, s, met: vec![false; n] };
    for j in 0..q {
        let length = |i: usize| m / q + usize::from(i < m % q);
        let (start, symbols): (usize, usize) = ((0..j).map(length).sum(), length(j));
        let pack = |page: usize| if live[page] { plain::pack(s.b, symbols as u32, &row(page)[start..start + symbols]).unwrap() } else { vec![] };
        let block = Block { j, b: s.b, symbols, len: plain::packed_length(s.b, symbols as u32), bytes: (0..p).map(pack).collect() };
        let mut pages = vec![false; p];
        let root = walk.meet(j as u32 + 1)?;
        walk.trie(root, &mut Vec::new(), &block, &mut pages)?;
        if pages != live {
            return None;
        }
    }
    let mut link = t.settings[FREE];
    while link != 0 {
        let x = walk.meet(link)?;
        if t.nodes[n + x] != FREE_NODE || walk.heads(x).iter().any(|&h| h != 0) {
            return None;
        }
        link = t.nodes[x];
    }
    walk.met.iter().all(|&m| m).then_some(())
}

/// Has every leaf the number of its pages? Of tables that are sound otherwise, and in less time than `sound` takes.
pub fn numbers_hold(t: &Tables, s: &Settings) -> bool {
    (0..s.q as usize).all(|j| numbers_below(t, s, j, j))
}

fn numbers_below(t: &Tables, s: &Settings, j: usize, x: usize) -> bool {
    let (n, p) = (s.nodes as usize, s.pages as usize);
    match state::read(t.nodes[n + x]) {
        State::Free => false,
        State::Leaf { number, first } => {
            let (mut link, mut met) = (first as usize, 0);
            while link != 0 && met <= p {
                met += 1;
                link = t.pages[(2 + j) * p + link - 1] as usize;
            }
            met == number as usize
        }
        State::Inner => t.nodes[2 * n + 8 * x..2 * n + 8 * x + 8].iter().all(|&head| {
            let mut link = head as usize;
            while link != 0 {
                if !numbers_below(t, s, j, link - 1) {
                    return false;
                }
                link = (t.nodes[link - 1] & 0x7_ffff) as usize;
            }
            true
        }),
    }
}
