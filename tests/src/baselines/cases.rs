//! What the benchmarks search: pages and queries for some settings, and the library's own store of them.
use super::{Hits, Packed, Way};
use crate::calls;
use crate::random::Random;
use crate::stores::Sketches;
use crate::tables::{Settings, Tables};
use std::ops::RangeInclusive;

pub const QUERIES: usize = 1_000;
/// The classes that are open to the reader who searches, unless all are.
pub const OPEN: u64 = 0x0f0f_f0f0_ffff_1111;
const READER: u32 = 9;
const GROUP: u32 = 3;
const NODES: u32 = 262_144;

/// Sketches by page, m symbols each, and a class each.
pub struct Pages {
    pub m: usize,
    pub symbols: Vec<u8>,
    pub classes: Vec<u8>,
}

impl Pages {
    pub fn new(m: usize) -> Self {
        Pages { m, symbols: Vec::new(), classes: Vec::new() }
    }

    pub fn add(&mut self, class: u8, sketch: &[u8]) {
        self.symbols.extend(sketch);
        self.classes.push(class);
    }

    pub fn sketch(&self, page: usize) -> &[u8] {
        &self.symbols[page * self.m..(page + 1) * self.m]
    }

    pub fn packed(&self, b: u32) -> Packed {
        let mut packed = Packed::new(b, self.m, self.classes.len());
        for (p, &class) in self.classes.iter().enumerate() {
            packed.set(p, class, self.sketch(p));
        }
        packed
    }
}

/// How sketches and queries are drawn. The third has the pages of the second, and queries at all distances from a page, of which those are
/// taken that list 8 to 12 pages.
#[derive(Clone, Copy, PartialEq)]
pub enum Kind {
    Random,
    Clustered,
    Few,
}

const FEW: RangeInclusive<usize> = 8..=12;
/// So many queries are drawn at most for those that list few pages.
const DRAWN: usize = 50_000;

impl Kind {
    pub fn name(self) -> &'static str {
        ["random", "clustered", "few"][self as usize]
    }

    pub fn named(name: &str) -> Self {
        [Kind::Random, Kind::Clustered, Kind::Few].into_iter().find(|kind| kind.name() == name).expect("random, clustered or few")
    }
}

/// The settings of a store, how its sketches are drawn, the radius of its searches, and the classes open to the reader.
pub struct Case {
    pub n: usize,
    pub b: u32,
    pub m: usize,
    pub r: u32,
    pub q: usize,
    pub threshold: u16,
    pub kind: Kind,
    pub open: u64,
}

impl Case {
    /// The pages, and `QUERIES` queries; every other one is near a page. The same at every call.
    pub fn pages(&self) -> (Pages, Vec<Vec<u8>>) {
        let random = &mut Random::new(u64::from(self.b) * 1_000 + self.n as u64 + u64::from(self.kind != Kind::Random));
        let centres = Sketches::new(random, self.b, self.m as u32, 1 + self.n / 100);
        let sketch = |random: &mut Random| if self.kind == Kind::Random { random.bytes(self.m, 1 << self.b) } else { centres.near(random, 6) };
        let mut pages = Pages::new(self.m);
        for _ in 0..self.n {
            let x = sketch(random);
            pages.add(random.below(64) as u8, &x);
        }
        let near = |random: &mut Random, changes: u64| {
            let mut x = pages.sketch(random.below(self.n as u64) as usize).to_vec();
            for _ in 0..changes {
                x[random.below(self.m as u64) as usize] = random.below(1 << self.b) as u8;
            }
            x
        };
        let queries: Vec<Vec<u8>> = if self.kind == Kind::Few {
            let (packed, mut hits) = (pages.packed(self.b), Hits::new(self.n));
            let mut lists_few = |query: &Vec<u8>| {
                (&packed).search(self.open, self.r, query, &mut hits);
                FEW.contains(&hits.count())
            };
            let mut any = || {
                let changes = random.below(1 + 4 * u64::from(self.r));
                near(random, changes)
            };
            (0..DRAWN).map(|_| any()).filter(|query| lists_few(query)).take(QUERIES).collect()
        } else {
            (0..QUERIES).map(|i| if i % 2 == 0 { near(random, 1) } else { sketch(random) }).collect()
        };
        assert_eq!(queries.len(), QUERIES, "too few queries that list few pages");
        (pages, queries)
    }

    /// How many keys of a block are within its radius.
    pub fn keys(&self) -> usize {
        let symbols = self.m.div_ceil(self.q);
        (0..self.r as usize / self.q).fold(1, |n, i| 1 + n * (symbols - i) * ((1 << self.b) - 1))
    }
}

/// The library's tables, and the classes that they open to the reader.
pub struct Library {
    pub tables: Tables,
    open: u64,
}

impl Library {
    /// As many nodes as there can be; the reader is in one group.
    pub fn new(c: &Case, pages: &Pages) -> Self {
        Self::in_groups(c, pages, NODES, 1)
    }

    /// The reader is in so many groups, and each has its share of the classes.
    pub fn in_groups(c: &Case, pages: &Pages, nodes: u32, groups: u32) -> Self {
        let s = Settings { b: c.b, m: c.m as u32, q: c.q as u32, pages: c.n as u32, nodes, thresholds: vec![c.threshold; 64] };
        let mut tables = empty(&s);
        assert_eq!(calls::open(&mut tables, &s), 0);
        for (p, &class) in pages.classes.iter().enumerate() {
            assert_eq!(calls::add(&mut tables.lend(), p as u32, class.into(), pages.sketch(p)), 0);
        }
        Self::with_tables(tables, c.open, groups)
    }

    /// Tables without rights are given these.
    pub fn with_tables(mut tables: Tables, open: u64, groups: u32) -> Self {
        let group = |i: u32| (GROUP + i % groups) % 32;
        assert!((0..groups).all(|i| calls::join(&mut tables, READER, group(i)) == 0));
        for class in (0..64).filter(|k| open >> k & 1 == 1) {
            assert_eq!(calls::grant(&mut tables, group(class), class), 0);
        }
        Library { tables, open }
    }

    pub fn is_sound(&mut self) -> bool {
        calls::check(&mut self.tables.lend()) == (0, true)
    }
}

/// Tables as long as the library wants them.
pub fn empty(s: &Settings) -> Tables {
    let (number, n) = calls::lengths(s);
    assert_eq!(number, 0);
    Tables {
        settings: vec![0; n.settings],
        nodes: vec![0; n.nodes],
        pages: vec![0; n.pages],
        sketches: vec![0; n.sketches],
        working: vec![0; n.working],
    }
}

impl Way for Library {
    /// The reader's rights are in the library's register; how many pages it tests it does not tell.
    fn search(&mut self, open: u64, radius: u32, query: &[u8], out: &mut Hits) -> usize {
        assert_eq!(open, self.open);
        let (pages, distances, count) = out.lend();
        let given = calls::search(&mut self.tables.lend(), READER, radius, query, pages, distances);
        assert!(given.number == 0 && given.value as usize <= pages.len(), "{given:?}");
        *count = given.value as usize;
        0
    }
}
