//! The tables and the calls on them as document 01 and docs/LAYOUT.md have them, in plain Rust.
//! Written from the documents and not from the proved code.
use crate::plain::distance;
use crate::state::{EMPTY_LEAF, FREE_NODE};

pub const MARK: u32 = 0x5644_0004;
/// The marks of layouts 1 to 3.
pub const EARLIER_MARKS: [u32; 3] = [0x5644_0001, 0x5644_0002, 0x5644_0003];
pub const SETTINGS: usize = 903;
/// The records: memberships, and grants behind them.
pub const MEMBERS: usize = 70;
pub const GRANTS: usize = 326;
/// What the records say, for each reader.
pub const ENTRIES: usize = 390;
pub const FREE: usize = 902;

pub const READERS: u32 = 256;
pub const GROUPS: u32 = 32;
pub const CLASSES: u32 = 64;

/// The tables of one index.
#[derive(Clone, PartialEq, Eq, Debug, Default)]
pub struct Tables {
    pub settings: Vec<u32>,
    pub nodes: Vec<u32>,
    pub pages: Vec<u32>,
    pub sketches: Vec<u8>,
    pub working: Vec<u32>,
}

/// What an opening is given.
#[derive(Clone, PartialEq, Eq, Debug)]
pub struct Settings {
    pub b: u32,
    pub m: u32,
    pub q: u32,
    pub pages: u32,
    pub nodes: u32,
    pub thresholds: Vec<u16>,
}

/// How long each table must be.
#[derive(Clone, Copy, PartialEq, Eq, Debug, Default)]
pub struct Lengths {
    pub settings: usize,
    pub nodes: usize,
    pub pages: usize,
    pub sketches: usize,
    pub working: usize,
}

impl Lengths {
    pub fn each(&mut self) -> [&mut usize; 5] {
        [&mut self.settings, &mut self.nodes, &mut self.pages, &mut self.sketches, &mut self.working]
    }
}

impl Settings {
    pub fn within_limits(&self) -> bool {
        (1..=8).contains(&self.b)
            && (1..=64).contains(&self.m)
            && (1..=8).contains(&self.q)
            && self.q <= self.m
            && (1..=65_535).contains(&self.pages)
            && (self.q..=262_144).contains(&self.nodes)
    }

    pub fn lengths(&self) -> Lengths {
        let [m, q, p, n] = [self.m, self.q, self.pages, self.nodes].map(|x| x as usize);
        let map = p.max(n.div_ceil(8)).div_ceil(32);
        Lengths { settings: SETTINGS, nodes: 10 * n, pages: (2 + q) * p, sketches: p * m, working: map + map.div_ceil(32) }
    }
}

/// The set of classes in the two words from `at` on, class c at bit c.
fn classes(settings: &[u32], at: usize) -> u64 {
    u64::from(settings[at]) | u64::from(settings[at + 1]) << 32
}

/// The entry of a reader: the classes that are open to him.
pub fn entry(settings: &[u32], reader: u32) -> u64 {
    classes(settings, ENTRIES + 2 * reader as usize)
}

pub fn is_member(settings: &[u32], reader: u32, group: u32) -> bool {
    settings[MEMBERS + reader as usize] >> group & 1 == 1
}

/// What the records say that his entry is: all that is granted to one of his groups.
pub fn recorded(settings: &[u32], reader: u32) -> u64 {
    let his = (0..GROUPS).filter(|&group| is_member(settings, reader, group));
    his.fold(0, |open, group| open | classes(settings, GRANTS + 2 * group as usize))
}

/// Is the class open to the reader, by his entry? A class above 63 is open to no one.
pub fn opens(settings: &[u32], reader: u32, class: u32) -> bool {
    class < CLASSES && entry(settings, reader) >> class & 1 == 1
}

/// The readers whose entry is stale.
pub fn stale(settings: &[u32]) -> Vec<u32> {
    (0..READERS).filter(|&reader| entry(settings, reader) != recorded(settings, reader)).collect()
}

/// Sets or clears a flag, 32 to a word.
fn write_flag(words: &mut [u32], at: u32, on: bool) {
    let (word, bit) = (&mut words[at as usize / 32], 1 << (at % 32));
    *word = if on { *word | bit } else { *word & !bit };
}

/// The class of a page, by its page word; none of a page that is not live.
pub fn class_of(pages: &[u32], page: usize) -> Option<u32> {
    pages[page].checked_sub(1)
}

/// The distance of the page's row from the query, where the page is marked live, open to the reader and within the radius. Of tables that
/// show an opening.
pub fn hit(settings: &[u32], pages: &[u32], sketches: &[u8], reader: u32, radius: u32, query: &[u8], page: usize) -> Option<u32> {
    let (m, cap) = (settings[2] as usize, settings[4] as usize);
    let open = page < cap && class_of(pages, page).is_some_and(|class| opens(settings, reader, class));
    open.then(|| distance(&sketches[page * m..page * m + m], query)).filter(|&d| d <= radius)
}

impl Tables {
    /// Tables as long as they must be, with one number in every place.
    pub fn filled_with(number: u8, s: &Settings) -> Tables {
        let (l, word) = (s.lengths(), u32::from(number));
        Tables {
            settings: vec![word; l.settings],
            nodes: vec![word; l.nodes],
            pages: vec![word; l.pages],
            sketches: vec![number; l.sketches],
            working: vec![word; l.working],
        }
    }

    /// Cut to the lengths, where a table is longer.
    pub fn cut(&mut self, l: &Lengths) {
        self.settings.truncate(l.settings);
        self.nodes.truncate(l.nodes);
        self.pages.truncate(l.pages);
        self.sketches.truncate(l.sketches);
        self.working.truncate(l.working);
    }

    /// Questions 5 and 6 as far as they concern the settings table; the settings that it shows.
    fn shown(&self) -> Result<Settings, u32> {
        let w = &self.settings;
        if w.len() < SETTINGS {
            return Err(5);
        }
        let s = Settings { b: w[1], m: w[2], q: w[3], pages: w[4], nodes: w[5], thresholds: vec![] };
        if w[0] != MARK || !s.within_limits() || w[6..MEMBERS].iter().any(|&t| t > 65_535) {
            return Err(6);
        }
        Ok(s)
    }

    pub fn open(&mut self, s: &Settings) -> u32 {
        if !s.within_limits() || s.thresholds.len() != 64 {
            return 4;
        }
        let l = s.lengths();
        if self.settings.len() < l.settings
            || self.nodes.len() < l.nodes
            || self.pages.len() < l.pages
            || self.sketches.len() < l.sketches
            || self.working.len() < l.working
        {
            return 5;
        }
        let (q, n) = (s.q as usize, s.nodes as usize);
        let link = |x: usize| if x < n { x as u32 + 1 } else { 0 };
        let w = &mut self.settings;
        w[..6].copy_from_slice(&[MARK, s.b, s.m, s.q, s.pages, s.nodes]);
        for (word, &t) in w[6..MEMBERS].iter_mut().zip(&s.thresholds) {
            *word = u32::from(t);
        }
        w[MEMBERS..FREE].fill(0);
        w[FREE] = link(q);
        self.nodes[..l.nodes].fill(0);
        for x in 0..n {
            self.nodes[x] = if x < q { 0 } else { link(x + 1) };
            self.nodes[n + x] = if x < q { EMPTY_LEAF } else { FREE_NODE };
        }
        self.pages[..l.pages].fill(0);
        0
    }

    /// The membership, and then the reader's whole entry.
    fn member(&mut self, reader: u32, group: u32, on: bool) -> u32 {
        if let Err(number) = self.shown() {
            return number;
        }
        if reader >= READERS || group >= GROUPS {
            return 7;
        }
        write_flag(&mut self.settings[MEMBERS..], reader * GROUPS + group, on);
        let open = recorded(&self.settings, reader);
        for class in 0..CLASSES {
            self.write_open(reader, class, open);
        }
        0
    }

    /// The grant, and then this class in the entry of each member.
    fn granted(&mut self, group: u32, class: u32, on: bool) -> u32 {
        if let Err(number) = self.shown() {
            return number;
        }
        if group >= GROUPS || class >= CLASSES {
            return 7;
        }
        write_flag(&mut self.settings[GRANTS..], group * CLASSES + class, on);
        for reader in 0..READERS {
            if is_member(&self.settings, reader, group) {
                self.write_open(reader, class, recorded(&self.settings, reader));
            }
        }
        0
    }

    /// One class of a reader's entry, as it is in this set.
    fn write_open(&mut self, reader: u32, class: u32, open: u64) {
        write_flag(&mut self.settings[ENTRIES..], reader * CLASSES + class, open >> class & 1 == 1);
    }

    pub fn join(&mut self, reader: u32, group: u32) -> u32 {
        self.member(reader, group, true)
    }

    pub fn leave(&mut self, reader: u32, group: u32) -> u32 {
        self.member(reader, group, false)
    }

    pub fn grant(&mut self, group: u32, class: u32) -> u32 {
        self.granted(group, class, true)
    }

    pub fn revoke(&mut self, group: u32, class: u32) -> u32 {
        self.granted(group, class, false)
    }

    /// Join, leave, grant or revoke, by its number in `calls::lent_right`.
    pub fn right(&mut self, call: u64, x: u32, y: u32) -> u32 {
        match call {
            0 => self.join(x, y),
            1 => self.leave(x, y),
            2 => self.grant(x, y),
            _ => self.revoke(x, y),
        }
    }

    /// The row of a page that is shown: its start and length in the sketch table; or the refusal's number.
    pub fn show(&self, reader: u32, page: u32) -> Result<(usize, usize), u32> {
        let s = self.shown()?;
        let l = s.lengths();
        if self.pages.len() < l.pages || self.sketches.len() < l.sketches {
            return Err(6);
        }
        if reader >= READERS {
            return Err(7);
        }
        if page >= s.pages {
            return Err(8);
        }
        if !class_of(&self.pages, page as usize).is_some_and(|class| opens(&self.settings, reader, class)) {
            return Err(9);
        }
        Ok((page as usize * s.m as usize, s.m as usize))
    }
}
