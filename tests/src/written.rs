//! A plain index written into tables word by word (docs/LAYOUT.md), for stores that no call makes any more.
use crate::plain::signature;
use crate::state::{self, INNER};
use crate::tables::{Settings, Tables, EARLIER_MARKS, FREE};
use crate::trees::{Index, Node};

/// Tables of just the needed lengths. The nodes of the trees have the lowest numbers.
pub fn written(index: &Index) -> Tables {
    let s = &index.settings;
    let mut t = Tables::filled_with(0, s);
    assert_eq!(t.open(s), 0);
    assert!(index.members.iter().all(|&(reader, group)| t.join(reader, group) == 0));
    assert!(index.grants.iter().all(|&(group, class)| t.grant(group, class) == 0));
    let (p, m) = (s.pages as usize, s.m as usize);
    for (&page, row) in &index.rows {
        let page = page as usize;
        t.pages[page] = 1 + row.class;
        t.pages[p + page] = signature(s.b, &row.sketch);
        t.sketches[page * m..page * m + m].copy_from_slice(&row.sketch);
    }
    let mut used = s.q as usize;
    for (j, tree) in index.trees.iter().enumerate() {
        write(&mut t, s, j, j, tree, &mut used);
    }
    t.settings[FREE] = if used < s.nodes as usize { used as u32 + 1 } else { 0 };
    t
}

/// A node of block j at place x; its children at the next places that are not used.
fn write(t: &mut Tables, s: &Settings, j: usize, x: usize, node: &Node, used: &mut usize) {
    let (n, p) = (s.nodes as usize, s.pages as usize);
    match node {
        Node::Leaf(pages) => {
            let mut link = 0;
            for &page in pages.iter().rev() {
                t.pages[(2 + j) * p + page as usize] = link;
                link = page + 1;
            }
            t.nodes[n + x] = state::leaf(pages.len() as u32, link);
        }
        Node::Inner(children) => {
            t.nodes[n + x] = INNER;
            for (&byte, child) in children.iter().rev() {
                let place = *used;
                *used += 1;
                let head = 2 * n + 8 * x + usize::from(byte / 32);
                t.nodes[place] = t.nodes[head] | u32::from(byte) << 19;
                t.nodes[head] = place as u32 + 1;
                write(t, s, j, place, child, used);
            }
        }
    }
}

/// What adds of these pages in this order give where no leaf is split: one leaf a tree. Written to tables that were opened, of this layout or of
/// layout 3, since that many adds may take long.
pub fn write_one_leaf(t: &mut Tables, s: &Settings, order: &[u32], class: impl Fn(u32) -> u32, sketch: impl Fn(u32) -> Vec<u8>) {
    let (n, p, m) = (s.nodes as usize, s.pages as usize, s.m as usize);
    for &page in order {
        let (x, class, page) = (sketch(page), class(page), page as usize);
        t.pages[page] = 1 + class;
        t.pages[p + page] = signature(s.b, &x);
        t.sketches[page * m..page * m + m].copy_from_slice(&x);
    }
    for j in 0..s.q as usize {
        let mut link = 0;
        for &page in order {
            t.pages[(2 + j) * p + page as usize] = link;
            link = page + 1;
        }
        let number = order.len() as u32;
        t.nodes[n + j] = if t.settings[0] == EARLIER_MARKS[2] { 2 + link } else { state::leaf(number, link) };
    }
}
