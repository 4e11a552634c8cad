//! Random stores: settings, sketches that are alike, histories, and damage.
use crate::baselines::block;
use crate::calls;
use crate::plain::pack;
use crate::random::Random;
use crate::state::{self, EMPTY_LEAF, FREE_NODE, INNER, MOST};
use crate::tables::{Settings, Tables, ENTRIES, FREE, GRANTS, MEMBERS};
use crate::trees::Index;

/// Settings for small tables: every b and q, thresholds that split early, late or never.
pub fn small_settings(random: &mut Random) -> Settings {
    let m = match random.below(3) {
        0 => 1 + random.below(64) as u32,
        _ => 1 + random.below(12) as u32,
    };
    let q = 1 + random.below(u64::from(m.min(8))) as u32;
    let pages = 1 + random.below(40) as u32;
    let nodes = match random.below(3) {
        0 => q + random.below(12) as u32,
        1 => q + random.below(60) as u32,
        _ => q + q * 6 * pages,
    };
    let thresholds = match random.below(6) {
        0 => vec![0; 64],
        1 => vec![1; 64],
        2 => vec![8; 64],
        3 => vec![65_535; 64],
        _ => (0..64).map(|_| random.below(5) as u16).collect(),
    };
    Settings { b: 1 + random.below(8) as u32, m, q, pages, nodes, thresholds }
}

/// Settings for small tables with long paths: blocks of two to five packed bytes, and leaves that split at the first or second page.
pub fn deep_settings(random: &mut Random) -> Settings {
    let b = 1 + random.below(8) as u32;
    let q = 1 + random.below(3) as u32;
    let symbols = 1 + (8 / b) * (1 + random.below(4) as u32);
    let pages = 1 + random.below(40) as u32;
    let nodes = if random.below(3) == 0 { q + random.below(60) as u32 } else { q + q * 6 * pages };
    let thresholds = (0..64).map(|_| random.below(2) as u16).collect();
    Settings { b, m: 64.min(q * symbols), q, pages, nodes, thresholds }
}

/// Tables full of anything, long enough for the settings, with a rest behind.
pub fn any_tables(random: &mut Random, s: &Settings) -> Tables {
    let l = s.lengths();
    let mut words = |n: usize| (0..n).map(|_| random.next() as u32).collect::<Vec<_>>();
    Tables {
        settings: words(l.settings + 2),
        nodes: words(l.nodes + 3),
        pages: words(l.pages + 3),
        sketches: words(l.sketches + 3).into_iter().map(|w| w as u8).collect(),
        working: words(l.working + 3),
    }
}

/// Sketches near a few centres, so that leaves fill up and equal sketches occur.
pub struct Sketches {
    b: u32,
    centres: Vec<Vec<u8>>,
}

impl Sketches {
    pub fn new(random: &mut Random, b: u32, m: u32, centres: usize) -> Self {
        Sketches { b, centres: (0..centres).map(|_| random.bytes(m as usize, 1 << b)).collect() }
    }

    /// A centre with up to `changes` symbols changed.
    pub fn near(&self, random: &mut Random, changes: u64) -> Vec<u8> {
        let mut x = self.centres[random.below(self.centres.len() as u64) as usize].clone();
        for _ in 0..random.below(changes + 1) {
            let at = random.below(x.len() as u64) as usize;
            x[at] = random.below(1 << self.b) as u8;
        }
        x
    }
}

/// A store opened on both sides.
pub fn opened(random: &mut Random, s: &Settings) -> (Tables, Index) {
    let mut t = any_tables(random, s);
    assert_eq!(calls::open(&mut t, s), 0);
    (t, Index::open(s.clone()))
}

/// A store with some pages, some of them dropped again, and some rights; the same on both sides.
pub fn filled(random: &mut Random, s: &Settings, calls_made: u64) -> (Tables, Index, Sketches) {
    let (mut t, mut plain) = opened(random, s);
    let centres = 1 + random.below(4) as usize;
    let sketches = Sketches::new(random, s.b, s.m, centres);
    for _ in 0..calls_made {
        let page = random.below(u64::from(s.pages)) as u32;
        if random.below(4) == 0 {
            assert_eq!(calls::drop(&mut t.lend(), page), plain.drop(page));
        } else {
            let (class, x) = (random.below(64) as u32, sketches.near(random, 4));
            assert_eq!(calls::add(&mut t.lend(), page, class, &x), plain.add(page, class, &x));
        }
    }
    for _ in 0..random.below(40) {
        let (reader, group, class) = (random.below(3) as u32, random.below(6) as u32, random.below(64) as u32);
        assert_eq!(calls::join(&mut t, reader, group), plain.join(reader, group));
        assert_eq!(calls::grant(&mut t, group, class), plain.grant(group, class));
        let (reader, group, class) = (random.below(3) as u32, random.below(6) as u32, random.below(64) as u32);
        match random.below(8) {
            0 => assert_eq!(calls::leave(&mut t, reader, group), plain.leave(reader, group)),
            1 => assert_eq!(calls::revoke(&mut t, group, class), plain.revoke(group, class)),
            _ => {}
        }
    }
    (t, plain, sketches)
}

/// Damages one word of the rights, mostly one of the readers and groups that the stores here use: a membership, a grant or an entry.
pub fn damage_right(random: &mut Random, settings: &mut [u32]) {
    let at = match random.below(8) {
        0 => MEMBERS + random.below((FREE - MEMBERS) as u64) as usize,
        1 => MEMBERS + random.below(4) as usize,
        2 => GRANTS + random.below(12) as usize,
        _ => ENTRIES + random.below(8) as usize,
    };
    let word = &mut settings[at];
    *word = match random.below(6) {
        0 => 0,
        1 => u32::MAX,
        2 | 3 => random.next() as u32,
        _ => *word ^ 1 << random.below(32),
    };
}

/// A number that a leaf may be said to have.
pub fn any_number(random: &mut Random) -> u32 {
    match random.below(4) {
        0 => MOST,
        1 => random.below(65_536) as u32,
        _ => random.below(6) as u32,
    }
}

/// Another state for a node: any word, that of another node, or a leaf's with another number, another link or both.
fn other_state(random: &mut Random, s: &Settings, word: u32) -> u32 {
    let link = random.below(u64::from(s.pages) + 2) as u32;
    match random.below(6) {
        0 => random.next() as u32,
        1 => [FREE_NODE, INNER, EMPTY_LEAF][random.below(3) as usize],
        2 => state::with_number(link, word / 65_536),
        3 => state::with_number(link, any_number(random)),
        _ => state::with_number(word, any_number(random)),
    }
}

/// Damages some words of the tables behind an opening: links that lead anywhere, cycles, other states, classes,
/// signatures, symbols and rights.
pub fn damage(random: &mut Random, t: &mut Tables, s: &Settings) {
    let (n, p) = (s.nodes as usize, s.pages as usize);
    for _ in 0..1 + random.below(6) {
        let link = match random.below(4) {
            0 => random.next() as u32,
            1 => random.below(s.nodes as u64 + 2) as u32,
            _ => random.below(s.pages as u64 + 2) as u32,
        };
        match random.below(10) {
            0 => t.settings[FREE] = link,
            1 => t.nodes[random.below(n as u64) as usize] = link | (random.below(256) as u32) << 19,
            2 => {
                let word = &mut t.nodes[n + random.below(n as u64) as usize];
                *word = other_state(random, s, *word);
            }
            3 | 4 => t.nodes[2 * n + random.below(8 * n as u64) as usize] = link,
            5 => t.pages[random.below(2 * p as u64) as usize] = link,
            6 => t.pages[2 * p + random.below(u64::from(s.q) * p as u64) as usize] = link,
            7 | 8 => damage_right(random, &mut t.settings),
            _ => {
                let at = random.below(t.sketches.len() as u64) as usize;
                t.sketches[at] = random.next() as u8;
            }
        }
    }
}

/// The nodes on the way of a page in block j of a sound store, from the root to its leaf.
pub fn way(t: &Tables, s: &Settings, j: usize, page: u32) -> Vec<usize> {
    let (m, n) = (s.m as usize, s.nodes as usize);
    let (start, symbols) = block(m, s.q as usize, j);
    let row = page as usize * m + start;
    let mut way = vec![j];
    for byte in pack(s.b, symbols as u32, &t.sketches[row..row + symbols]).unwrap() {
        let x = way[way.len() - 1];
        if t.nodes[n + x] != INNER {
            break;
        }
        let mut child = t.nodes[2 * n + 8 * x + usize::from(byte / 32)] as usize - 1;
        while t.nodes[child] >> 19 != u32::from(byte) {
            child = (t.nodes[child] & 0x7_ffff) as usize - 1;
        }
        way.push(child);
    }
    way
}

/// Damages some words on the way of a page in one block of a sound store: links of its nodes, most of them to nodes on the way, so that
/// there are cycles; other states; the link behind the page; the free link.
pub fn damage_way(random: &mut Random, t: &mut Tables, s: &Settings, page: u32) {
    let (n, p) = (s.nodes as usize, s.pages as usize);
    let j = random.below(u64::from(s.q)) as usize;
    let way = way(t, s, j, page);
    for _ in 0..1 + random.below(3) {
        let on_it = |random: &mut Random| way[random.below(way.len() as u64) as usize];
        let x = on_it(random);
        let link = match random.below(8) {
            0 => 0,
            1 => random.below(n as u64 + 2) as u32,
            2 => random.next() as u32 & 0x7_ffff,
            3 => 1 + random.below(u64::from(s.q)) as u32,
            _ => 1 + on_it(random) as u32,
        };
        // of the chain word that it leads to, or of the node itself
        let byte = t.nodes[if random.below(2) == 0 { on_it(random) } else { x }] >> 19 << 19;
        match random.below(8) {
            0 | 1 => t.nodes[x] = byte | link,
            2 => {
                let other = other_state(random, s, t.nodes[n + x]);
                t.nodes[n + x] = [FREE_NODE, INNER, EMPTY_LEAF, state::leaf(1, 1 + page), other][random.below(5) as usize];
            }
            3 | 4 => {
                let heads = &mut t.nodes[2 * n + 8 * x..2 * n + 8 * x + 8];
                let used = heads.iter().position(|&head| head != 0).unwrap_or(0);
                let g = if random.below(2) == 0 { used } else { random.below(8) as usize };
                heads[g] = if random.below(4) == 0 { byte | link } else { link };
            }
            5 => t.pages[(2 + j) * p + page as usize] = [1 + page, link][random.below(2) as usize],
            6 => t.settings[FREE] = link,
            _ => {
                // a head of x and the byte of the node that it leads to, so that the way goes on there
                let to = on_it(random);
                t.nodes[to] = t.nodes[to] & 0x7_ffff | byte;
                t.nodes[2 * n + 8 * x + (byte >> 24) as usize] = 1 + to as u32;
            }
        }
    }
}

/// Every word behind the header at random, mostly small; those of the rights of any size, some leaves with a number, and some inner nodes.
pub fn scramble(random: &mut Random, t: &mut Tables, s: &Settings) {
    t.settings[MEMBERS..FREE].iter_mut().for_each(|w| *w = random.next() as u32);
    let top = u64::from(s.nodes.max(s.pages)) + 3;
    let mut word = || if random.below(10) == 0 { random.next() as u32 } else { random.below(top) as u32 };
    t.settings[FREE] = word();
    t.nodes.iter_mut().for_each(|w| *w = word());
    t.pages.iter_mut().for_each(|w| *w = word());
    t.working.iter_mut().for_each(|w| *w = word());
    let n = s.nodes as usize;
    for word in &mut t.nodes[n..2 * n] {
        *word = match random.below(6) {
            0 | 1 => state::with_number(*word, any_number(random)),
            2 => INNER,
            _ => *word,
        };
    }
}

/// A store with some pages, then damaged: every fourth one in every word.
pub fn damaged(random: &mut Random, s: &Settings, round: u32) -> (Tables, Sketches) {
    let (mut t, _, sketches) = filled(random, s, 40);
    if round % 4 == 0 {
        scramble(random, &mut t, s);
    } else {
        damage(random, &mut t, s);
    }
    (t, sketches)
}

/// The tables cut to their lengths, and one of the first `tables` of them shorter. Gives the number that refuses it.
pub fn cut_short(random: &mut Random, t: &mut Tables, s: &Settings, tables: u64) -> u32 {
    let mut l = s.lengths();
    let short = random.below(tables) as usize;
    let length = l.each().into_iter().nth(short).unwrap();
    *length = if random.below(2) == 0 { *length - 1 } else { random.below(*length as u64) as usize };
    t.cut(&l);
    if short == 0 { 5 } else { 6 }
}
