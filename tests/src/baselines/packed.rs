//! Sketches packed in words of 64 bits, how far apart two of them are, and the test of the pages that a search meets.
use super::{block, Hits};

/// Sketches by page, and a class each. A symbol has a group of 1, 2, 4 or 8 bits, a row 1, 2, 4 or 8 words.
pub struct Packed {
    pub b: u32,
    pub m: usize,
    pub width: usize,
    pub words: usize,
    pub rows: Vec<u64>,
    pub classes: Vec<u8>,
}

/// Calls a function of `WIDTH` and `WORDS` for the shape of the rows, so that its loops over a row are unrolled.
macro_rules! shaped {
    ($rows:expr, $this:ident.$call:ident($($given:expr),*)) => {
        match ($rows.width, $rows.words) {
            (1, 1) => $this.$call::<1, 1>($($given),*),
            (2, 1) => $this.$call::<2, 1>($($given),*),
            (2, 2) => $this.$call::<2, 2>($($given),*),
            (4, 1) => $this.$call::<4, 1>($($given),*),
            (4, 2) => $this.$call::<4, 2>($($given),*),
            (4, 4) => $this.$call::<4, 4>($($given),*),
            (8, 1) => $this.$call::<8, 1>($($given),*),
            (8, 2) => $this.$call::<8, 2>($($given),*),
            (8, 4) => $this.$call::<8, 4>($($given),*),
            _ => $this.$call::<8, 8>($($given),*),
        }
    };
}
pub(super) use shaped;

impl Packed {
    /// Room for some pages, all rows zero.
    pub fn new(b: u32, m: usize, pages: usize) -> Self {
        let width = b.next_power_of_two() as usize;
        let words = (m * width).div_ceil(64).next_power_of_two();
        Packed { b, m, width, words, rows: vec![0; pages * words], classes: vec![0; pages] }
    }

    pub fn len(&self) -> usize {
        self.classes.len()
    }

    pub fn is_empty(&self) -> bool {
        self.classes.is_empty()
    }

    pub fn set(&mut self, page: usize, class: u8, sketch: &[u8]) {
        let row = shaped!(self, self.packed(sketch));
        self.rows[page * self.words..(page + 1) * self.words].copy_from_slice(&row[..self.words]);
        self.classes[page] = class;
    }

    fn packed<const WIDTH: usize, const WORDS: usize>(&self, sketch: &[u8]) -> [u64; 8] {
        let mut row = [0; 8];
        row[..WORDS].copy_from_slice(&pack::<WIDTH, WORDS>(sketch));
        row
    }

    pub fn row(&self, page: usize) -> &[u64] {
        &self.rows[page * self.words..(page + 1) * self.words]
    }

    pub fn opens(&self, open: u64, page: usize) -> bool {
        open >> self.classes[page] & 1 == 1
    }

    /// Where the bits of block j of q begin and end in a row.
    pub fn block(&self, q: usize, j: usize) -> (usize, usize) {
        let (start, length) = block(self.m, q, j);
        (start * self.width, (start + length) * self.width)
    }
}

/// Eight symbols, a byte each, to eight groups side by side: neighbours are joined in three steps.
#[inline(always)]
fn pack_eight<const WIDTH: usize>(symbols: u64) -> u64 {
    let mut x = symbols;
    x = (x | x >> (8 - WIDTH)) & (u64::MAX / 0xffff * (0xffff >> (16 - 2 * WIDTH)));
    x = (x | x >> (16 - 2 * WIDTH)) & (u64::MAX / 0xffff_ffff * (0xffff_ffff >> (32 - 4 * WIDTH)));
    (x | x >> (32 - 4 * WIDTH)) & (u64::MAX >> (64 - 8 * WIDTH))
}

#[inline(always)]
pub fn pack<const WIDTH: usize, const WORDS: usize>(sketch: &[u8]) -> [u64; WORDS] {
    let mut row = [0; WORDS];
    let (eights, rest) = sketch.as_chunks::<8>();
    let mut put = |i: usize, symbols: [u8; 8]| row[i * WIDTH / 8] |= pack_eight::<WIDTH>(u64::from_le_bytes(symbols)) << (i * WIDTH % 8 * 8);
    for (i, &eight) in eights.iter().enumerate() {
        put(i, eight);
    }
    if !rest.is_empty() {
        let mut last = [0; 8];
        last[..rest.len()].copy_from_slice(rest);
        put(eights.len(), last);
    }
    row
}

/// The low bit of each group of `WIDTH` bits that is not zero.
#[inline(always)]
fn marks<const WIDTH: usize>(mut x: u64) -> u64 {
    if WIDTH >= 8 {
        x |= x >> 4;
    }
    if WIDTH >= 4 {
        x |= x >> 2;
    }
    if WIDTH >= 2 {
        x |= x >> 1;
    }
    x & (u64::MAX / ((1 << WIDTH) - 1))
}

/// How many groups differ. A row has at most `WIDTH` words, so their marks fit side by side and one count is enough.
#[inline(always)]
pub fn distance<const WIDTH: usize, const WORDS: usize>(x: &[u64; WORDS], y: &[u64; WORDS]) -> u32 {
    let mut differ = 0;
    for i in 0..WORDS {
        differ |= marks::<WIDTH>(x[i] ^ y[i]) << i;
    }
    differ.count_ones()
}

/// At most 64 bits of a row.
#[inline(always)]
pub fn bits(row: &[u64], start: usize, count: usize) -> u64 {
    let (i, shift) = (start / 64, start % 64);
    let mut word = row[i] >> shift;
    if shift + count > 64 {
        word |= row[i + 1] << (64 - shift);
    }
    word & (u64::MAX >> (64 - count))
}

/// A map of the pages found, so that a page met in several blocks is found once. Empty between searches.
pub struct Found {
    words: Vec<u64>,
}

impl Found {
    pub fn new(pages: usize) -> Self {
        Found { words: vec![0; pages.div_ceil(64)] }
    }

    /// Is the page not there yet? It is then.
    #[inline(always)]
    fn put(&mut self, p: usize) -> bool {
        let word = &mut self.words[p / 64];
        let is_new = *word >> (p % 64) & 1 == 0;
        *word |= 1 << (p % 64);
        is_new
    }

    /// Lists the pages found and empties the map.
    pub fn drain(&mut self, out: &mut Hits) {
        if out.found().len() < self.words.len() {
            out.found().for_each(|p| self.words[p / 64] = 0);
        } else {
            self.words.fill(0);
        }
        out.list();
    }
}

/// One search of an index over packed rows: what it tests the pages with, and what it found.
pub struct Test<'a, const WIDTH: usize, const WORDS: usize> {
    rows: &'a [[u64; WORDS]],
    classes: &'a [u8],
    pub query: [u64; WORDS],
    open: u64,
    radius: u32,
    found: &'a mut Found,
    hits: &'a mut Hits,
    pub tested: usize,
}

impl<'a, const WIDTH: usize, const WORDS: usize> Test<'a, WIDTH, WORDS> {
    #[inline(always)]
    pub fn new(packed: &'a Packed, found: &'a mut Found, open: u64, radius: u32, query: &[u8], hits: &'a mut Hits) -> Self {
        let rows = packed.rows.as_chunks::<WORDS>().0;
        Test { rows, classes: &packed.classes, query: pack::<WIDTH, WORDS>(query), open, radius, found, hits, tested: 0 }
    }

    #[inline(always)]
    pub fn pages(&mut self, pages: &[u16]) {
        self.tested += pages.len();
        for &page in pages {
            let p = usize::from(page);
            let d = distance::<WIDTH, WORDS>(&self.rows[p], &self.query);
            if d <= self.radius && self.open >> self.classes[p] & 1 == 1 {
                self.hits.put_if(self.found.put(p), p, d);
            }
        }
    }
}
