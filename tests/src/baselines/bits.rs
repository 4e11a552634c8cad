//! The strongest plain scan of sketches of 64 bits that was found: a word a page, exclusive or and population count, chunk by chunk; only where
//! a row of a chunk is near are they looked at singly. It is compiled for four kinds of machine, each with the test of a chunk that was the
//! fastest there.
use super::packed::{pack, Packed};
use super::{Hits, Way};

/// What a build may use.
#[derive(Clone, Copy, PartialEq, Debug)]
pub enum Build {
    /// any x86-64: no population count
    Any,
    /// x86-64-v2: population counts of single words
    Counts,
    /// x86-64-v3: vectors of 256 bits
    Avx2,
    /// vectors of 512 bits, with population counts
    Avx512,
}

impl Build {
    pub const ALL: [Build; 4] = [Build::Any, Build::Counts, Build::Avx2, Build::Avx512];

    pub fn runs_here(self) -> bool {
        match self {
            Build::Any => true,
            Build::Counts => is_x86_feature_detected!("popcnt"),
            Build::Avx2 => is_x86_feature_detected!("popcnt") && is_x86_feature_detected!("avx2"),
            Build::Avx512 => is_x86_feature_detected!("avx512vpopcntdq") && is_x86_feature_detected!("avx512vl") && is_x86_feature_detected!("avx512bw"),
        }
    }
}

/// One search: the pages, and what is asked.
struct Scan<'a> {
    rows: &'a [u64],
    classes: &'a [u8],
    open: u64,
    radius: u32,
    wanted: u64,
}

impl Scan<'_> {
    #[inline(always)]
    fn distance(&self, row: u64) -> u32 {
        (row ^ self.wanted).count_ones()
    }

    /// Puts down the near and open ones of some rows.
    #[inline(always)]
    fn put(&self, rows: &[u64], first: usize, out: &mut Hits) {
        for (i, &row) in rows.iter().enumerate() {
            let d = self.distance(row);
            if d <= self.radius && self.open >> self.classes[first + i] & 1 == 1 {
                out.put(first + i, d);
            }
        }
    }

    #[inline(always)]
    fn chunks<const CHUNK: usize>(&self, any_near: impl Fn(&[u64; CHUNK]) -> bool, out: &mut Hits) {
        let (chunks, rest) = self.rows.as_chunks::<CHUNK>();
        for (i, rows) in chunks.iter().enumerate() {
            if any_near(rows) {
                self.put(rows, i * CHUNK, out);
            }
        }
        self.put(rest, chunks.len() * CHUNK, out);
    }

    /// Tells by how many are near.
    #[inline(always)]
    fn by_count<const CHUNK: usize>(&self, out: &mut Hits) {
        let near = |row: &u64| u32::from(self.distance(*row) <= self.radius);
        self.chunks::<CHUNK>(|rows| rows.iter().map(near).sum::<u32>() != 0, out);
    }

    /// Tells by the signs of distance - radius - 1, in words of 64 bits.
    #[inline(always)]
    fn by_sign<const CHUNK: usize>(&self, out: &mut Hits) {
        let past = u64::from(self.radius) + 1;
        let less = |row: &u64| u64::from(self.distance(*row)).wrapping_sub(past);
        self.chunks::<CHUNK>(|rows| rows.iter().map(less).fold(0, |a, b| a | b) >> 63 == 1, out);
    }

    fn run(&self, out: &mut Hits) {
        self.by_count::<64>(out);
    }

    #[target_feature(enable = "popcnt")]
    fn run_with_counts(&self, out: &mut Hits) {
        self.by_sign::<32>(out);
    }

    #[target_feature(enable = "popcnt,avx2")]
    fn run_with_avx2(&self, out: &mut Hits) {
        self.by_sign::<64>(out);
    }

    #[target_feature(enable = "popcnt,avx2,avx512f,avx512vl,avx512bw,avx512vpopcntdq")]
    fn run_with_avx512(&self, out: &mut Hits) {
        self.by_sign::<64>(out);
    }
}

/// The scan by one build, which runs on this machine.
pub struct Words<'a> {
    packed: &'a Packed,
    build: Build,
}

impl<'a> Words<'a> {
    /// Of rows of one word; none where the machine cannot run the build.
    pub fn new(packed: &'a Packed, build: Build) -> Option<Self> {
        assert!(packed.width == 1 && packed.words == 1, "sketches of bits, at most 64");
        build.runs_here().then_some(Words { packed, build })
    }
}

impl Way for Words<'_> {
    fn search(&mut self, open: u64, radius: u32, query: &[u8], out: &mut Hits) -> usize {
        let [wanted] = pack::<1, 1>(query);
        let scan = Scan { rows: &self.packed.rows, classes: &self.packed.classes, open, radius, wanted };
        // safe: `new` has asked the machine
        match self.build {
            Build::Any => scan.run(out),
            Build::Counts => unsafe { scan.run_with_counts(out) },
            Build::Avx2 => unsafe { scan.run_with_avx2(out) },
            Build::Avx512 => unsafe { scan.run_with_avx512(out) },
        }
        out.list();
        self.packed.len()
    }
}
