//! Hashing of blocks: for each block a table from its bits to a contiguous list of pages. Built once, for pages that do not change.
use super::packed::{bits, shaped, Found, Packed, Test};
use super::{Hits, Way};

/// The pages from `start` to `end` have the key; a free slot has none.
#[derive(Clone, Default)]
struct Slot {
    key: u64,
    start: u32,
    end: u32,
}

/// One block: open addressing, at most every other slot in use.
struct Table {
    start: usize,
    end: usize,
    width: usize,
    slots: Vec<Slot>,
    pages: Vec<u16>,
    /// eight bits a slot, set by hash: tells most of the keys that no page has
    filter: Vec<u64>,
}

fn hash(key: u64, bits: u32) -> usize {
    (key.wrapping_mul(0x9e37_79b9_7f4a_7c15) >> (64 - bits)) as usize
}

impl Table {
    fn new(packed: &Packed, q: usize, j: usize) -> Self {
        let (start, end) = packed.block(q, j);
        let size = (2 * packed.len()).next_power_of_two();
        let mut table = Table {
            start,
            end,
            width: packed.width,
            slots: vec![Slot::default(); size],
            pages: vec![0; packed.len()],
            filter: vec![0; (8 * size).div_ceil(64)],
        };
        table.fill(packed);
        table
    }

    /// Counts the pages of each key, gives each slot its part of the list, and puts the pages there.
    fn fill(&mut self, packed: &Packed) {
        let slots: Vec<usize> = (0..packed.len()).map(|p| self.count(self.key(packed.row(p)))).collect();
        let mut before = 0;
        for slot in &mut self.slots {
            slot.start = before;
            before += slot.end;
            slot.end = slot.start;
        }
        for (p, &i) in slots.iter().enumerate() {
            self.pages[self.slots[i].end as usize] = p as u16;
            self.slots[i].end += 1;
        }
    }

    fn count(&mut self, key: u64) -> usize {
        let at = self.filter_bit(key);
        self.filter[at / 64] |= 1 << (at % 64);
        let i = self.slot(key);
        self.slots[i].key = key;
        self.slots[i].end += 1;
        i
    }

    /// The slot of a key, or the free one where it would stand.
    #[inline(always)]
    fn slot(&self, key: u64) -> usize {
        let mask = self.slots.len() - 1;
        let mut i = hash(key, self.slots.len().trailing_zeros());
        while self.slots[i].start != self.slots[i].end && self.slots[i].key != key {
            i = (i + 1) & mask;
        }
        i
    }

    fn filter_bit(&self, key: u64) -> usize {
        hash(key, self.slots.len().trailing_zeros() + 3)
    }

    fn may_have(&self, key: u64) -> bool {
        let at = self.filter_bit(key);
        self.filter[at / 64] >> (at % 64) & 1 == 1
    }

    #[inline(always)]
    fn find(&self, key: u64) -> &[u16] {
        let slot = &self.slots[self.slot(key)];
        &self.pages[slot.start as usize..slot.end as usize]
    }

    /// The block's bits. Of a longer block they are folded; two blocks may then have one key, and more pages are tested.
    #[inline(always)]
    fn key(&self, row: &[u64]) -> u64 {
        let mut key = 0;
        for at in (self.start..self.end).step_by(64) {
            key ^= bits(row, at, (self.end - at).min(64)).rotate_left(self.turn(at - self.start));
        }
        key
    }

    /// By how much the bits from there on are turned.
    fn turn(&self, at: usize) -> u32 {
        at as u32 / 64 * 7
    }

    /// What symbol i of the block changes in the key where it is another by the exclusive or `c`.
    fn change(&self, i: usize, c: u64) -> u64 {
        let at = i * self.width;
        (c << (at % 64)).rotate_left(self.turn(at))
    }

    /// All keys with up to `left` symbols changed, of those from `from` on.
    fn probe<const WIDTH: usize, const WORDS: usize>(&self, b: u32, key: u64, from: usize, left: u32, test: &mut Test<WIDTH, WORDS>) {
        if self.may_have(key) {
            test.pages(self.find(key));
        }
        if left == 0 {
            return;
        }
        for i in from..(self.end - self.start) / self.width {
            for c in 1..1 << b {
                self.probe(b, key ^ self.change(i, c), i + 1, left - 1, test);
            }
        }
    }
}

pub struct Hashing<'a> {
    packed: &'a Packed,
    tables: Vec<Table>,
    found: Found,
}

impl<'a> Hashing<'a> {
    pub fn new(packed: &'a Packed, q: usize) -> Self {
        Hashing { packed, tables: (0..q).map(|j| Table::new(packed, q, j)).collect(), found: Found::new(packed.len()) }
    }

    fn search_of<const WIDTH: usize, const WORDS: usize>(&mut self, open: u64, radius: u32, query: &[u8], out: &mut Hits) -> usize {
        let mut test = Test::<WIDTH, WORDS>::new(self.packed, &mut self.found, open, radius, query, out);
        let left = radius / self.tables.len() as u32;
        for table in &self.tables {
            let key = table.key(&test.query);
            if left == 0 {
                test.pages(table.find(key));
            } else {
                table.probe(self.packed.b, key, 0, left, &mut test);
            }
        }
        test.tested
    }
}

impl Way for Hashing<'_> {
    fn search(&mut self, open: u64, radius: u32, query: &[u8], out: &mut Hits) -> usize {
        let tested = shaped!(self.packed, self.search_of(open, radius, query, out));
        self.found.drain(out);
        tested
    }
}
