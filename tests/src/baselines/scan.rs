//! Scans: every row is measured, without a branch, and its class is looked at only where it is near.
use super::packed::{bits, distance, pack, shaped, Packed};
use super::{Hits, Way};

/// So many rows are counted in one loop, which the compiler can vectorise; only where one of them is near are they looked at singly.
const CHUNK: usize = 64;

/// Puts down the rows of a chunk that are near and open.
#[inline(always)]
fn scan_chunk(classes: &[u8], first: usize, open: u64, radius: u32, distance: impl Fn(usize) -> u32, out: &mut Hits) {
    if (0..CHUNK).map(|i| u32::from(distance(i) <= radius)).sum::<u32>() == 0 {
        return;
    }
    for (i, &class) in classes[first..].iter().take(CHUNK).enumerate() {
        let d = distance(i);
        if d <= radius && open >> class & 1 == 1 {
            out.put(first + i, d);
        }
    }
}

/// Packed rows, a few words of 64 bits each: exclusive ors, the differing groups marked, one population count.
impl Packed {
    fn scan_of<const WIDTH: usize, const WORDS: usize>(&self, open: u64, radius: u32, query: &[u8], out: &mut Hits) {
        let wanted = pack::<WIDTH, WORDS>(query);
        let (chunks, rest) = self.rows.as_chunks::<WORDS>().0.as_chunks::<CHUNK>();
        for (i, rows) in chunks.iter().enumerate() {
            scan_chunk(&self.classes, i * CHUNK, open, radius, |k| distance::<WIDTH, WORDS>(&rows[k], &wanted), out);
        }
        let first = chunks.len() * CHUNK;
        for (i, row) in rest.iter().enumerate() {
            let d = distance::<WIDTH, WORDS>(row, &wanted);
            if d <= radius && self.opens(open, first + i) {
                out.put(first + i, d);
            }
        }
    }
}

impl Way for &Packed {
    fn search(&mut self, open: u64, radius: u32, query: &[u8], out: &mut Hits) -> usize {
        let packed = *self;
        shaped!(packed, packed.scan_of(open, radius, query, out));
        out.list();
        packed.len()
    }
}

/// The vertical format of source document 000, section II: for each bit of a symbol a word of 64 places, or of 32 where m is no more. The
/// words of one bit stand together for the rows of a chunk.
pub struct Planes<'a> {
    packed: &'a Packed,
    narrow: Vec<u32>,
    wide: Vec<u64>,
}

/// A word with a place for each symbol.
trait Word: Copy + Default + std::ops::BitXor<Output = Self> + std::ops::BitOr<Output = Self> {
    fn of(word: u64) -> Self;
    fn ones(self) -> u32;
}

impl Word for u32 {
    fn of(word: u64) -> Self {
        word as u32
    }
    fn ones(self) -> u32 {
        self.count_ones()
    }
}

impl Word for u64 {
    fn of(word: u64) -> Self {
        word
    }
    fn ones(self) -> u32 {
        self.count_ones()
    }
}

/// Bit k of every symbol.
fn plane(k: usize, symbols: impl Iterator<Item = u8>) -> u64 {
    symbols.enumerate().fold(0, |w, (i, c)| w | u64::from(c >> k & 1) << i)
}

/// Bit k of every symbol of a query, eight symbols at a time.
#[inline(always)]
fn plane_of_query(k: usize, query: &[u8]) -> u64 {
    let (eights, rest) = query.as_chunks::<8>();
    let ones = |eight: [u8; 8]| (u64::from_le_bytes(eight) >> k & 0x0101_0101_0101_0101).wrapping_mul(0x0102_0408_1020_4080) >> 56;
    let word = eights.iter().enumerate().fold(0, |w, (i, &eight)| w | ones(eight) << (8 * i));
    word | plane(k, rest.iter().copied()).checked_shl(8 * eights.len() as u32).unwrap_or(0)
}

impl<'a> Planes<'a> {
    pub fn new(packed: &'a Packed) -> Self {
        let mut planes = Planes { packed, narrow: Vec::new(), wide: Vec::new() };
        if packed.m <= 32 {
            planes.narrow = planes.words();
        } else {
            planes.wide = planes.words();
        }
        planes
    }

    /// Chunk by chunk, in each the planes in turn; the last chunk is filled up.
    fn words<T: Word>(&self) -> Vec<T> {
        let width = self.packed.width;
        let symbol = |p: usize, i: usize| bits(self.packed.row(p), i * width, width) as u8;
        let word = |p: usize, k: usize| if p < self.packed.len() { plane(k, (0..self.packed.m).map(|i| symbol(p, i))) } else { 0 };
        let chunk = |c: usize| (0..width).flat_map(move |k| (0..CHUNK).map(move |i| (c * CHUNK + i, k)));
        (0..self.packed.len().div_ceil(CHUNK)).flat_map(chunk).map(|(p, k)| T::of(word(p, k))).collect()
    }

    fn scan_of<T: Word, const WIDTH: usize>(&self, words: &[T], open: u64, radius: u32, query: &[u8], out: &mut Hits) {
        let wanted: [T; WIDTH] = std::array::from_fn(|k| T::of(plane_of_query(k, query)));
        let chunks = words.as_chunks::<CHUNK>().0.as_chunks::<WIDTH>().0;
        for (i, planes) in chunks.iter().enumerate() {
            let differ = |row: usize| (0..WIDTH).fold(T::default(), |w, k| w | (planes[k][row] ^ wanted[k]));
            scan_chunk(&self.packed.classes, i * CHUNK, open, radius, |row| differ(row).ones(), out);
        }
    }

    fn scan<T: Word>(&self, words: &[T], open: u64, radius: u32, query: &[u8], out: &mut Hits) {
        match self.packed.width {
            1 => self.scan_of::<T, 1>(words, open, radius, query, out),
            2 => self.scan_of::<T, 2>(words, open, radius, query, out),
            4 => self.scan_of::<T, 4>(words, open, radius, query, out),
            _ => self.scan_of::<T, 8>(words, open, radius, query, out),
        }
    }
}

impl Way for Planes<'_> {
    fn search(&mut self, open: u64, radius: u32, query: &[u8], out: &mut Hits) -> usize {
        if self.packed.m <= 32 {
            self.scan(&self.narrow, open, radius, query, out);
        } else {
            self.scan(&self.wide, open, radius, query, out);
        }
        out.list();
        self.packed.len()
    }
}
