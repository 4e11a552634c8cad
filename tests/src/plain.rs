//! Sketches as document 01 has them, written from the document and not from the proved code.

/// A refusal's number, or the value.
pub type Answer<T> = Result<T, u32>;

fn limits(b: u32, m: u32) -> Answer<()> {
    if (1..=8).contains(&b) && (1..=64).contains(&m) {
        Ok(())
    } else {
        Err(4)
    }
}

fn symbols_fit(b: u32, x: &[u8]) -> bool {
    x.iter().all(|&s| u32::from(s) < 1 << b)
}

fn pair_asked(b: u32, m: u32, x: &[u8], y: &[u8]) -> Answer<()> {
    limits(b, m)?;
    if x.len() == m as usize && y.len() == m as usize { Ok(()) } else { Err(10) }
}

/// The number of places where two sketches differ.
pub fn measure(b: u32, m: u32, x: &[u8], y: &[u8]) -> Answer<u32> {
    pair_asked(b, m, x, y)?;
    if !symbols_fit(b, x) || !symbols_fit(b, y) {
        return Err(11);
    }
    Ok(distance(x, y))
}

/// The same in one loop: at each place the range of both symbols and their difference. A symbol out of range ends it.
#[inline(never)]
pub fn measure_by_places(b: u32, m: u32, x: &[u8], y: &[u8]) -> Answer<u32> {
    pair_asked(b, m, x, y)?;
    let limit = 1u32 << b;
    let mut differing = 0;
    for (&s, &t) in x.iter().zip(y) {
        if u32::from(s) >= limit || u32::from(t) >= limit {
            return Err(11);
        }
        differing += u32::from(s != t);
    }
    Ok(differing)
}

/// The same in one loop without a branch: it goes on to the last place, and the range of all symbols is asked behind it.
#[inline(never)]
pub fn measure_to_the_end(b: u32, m: u32, x: &[u8], y: &[u8]) -> Answer<u32> {
    pair_asked(b, m, x, y)?;
    let (mut bits, mut differing) = (0u8, 0u8);
    for (&s, &t) in x.iter().zip(y) {
        bits |= s | t;
        differing += u8::from(s != t);
    }
    if u32::from(bits) < 1 << b { Ok(differing.into()) } else { Err(11) }
}

/// How far apart two rows of equal lengths are, whatever their symbols.
pub fn distance(x: &[u8], y: &[u8]) -> u32 {
    x.iter().zip(y).filter(|(a, b)| a != b).count() as u32
}

/// A page on a list, and its distance from the query.
#[derive(Clone, Copy, Debug, PartialEq, Eq)]
pub struct Hit {
    pub page: u32,
    pub distance: u32,
}

/// The order of a list: by distance, then by page number. The sort is stable.
pub fn nearest_first(mut hits: Vec<Hit>) -> Vec<Hit> {
    hits.sort_by_key(|hit| (hit.distance, hit.page));
    hits
}

pub fn packed_length(b: u32, m: u32) -> usize {
    let z = 8 / b;
    m.div_ceil(z) as usize
}

/// Symbols to bytes.
pub fn pack(b: u32, m: u32, x: &[u8]) -> Answer<Vec<u8>> {
    limits(b, m)?;
    if x.len() != m as usize {
        return Err(10);
    }
    if !symbols_fit(b, x) {
        return Err(11);
    }
    let z = (8 / b) as usize;
    Ok(x.chunks(z).map(|cs| cs.iter().rev().fold(0u32, |v, &c| (v << b) | u32::from(c)) as u8).collect())
}

/// The signature of a sketch: its packed bytes, four to a word with the first lowest, and the words joined by exclusive or.
pub fn signature(b: u32, x: &[u8]) -> u32 {
    let bytes = pack(b, x.len() as u32, x).unwrap();
    bytes.iter().enumerate().fold(0, |s, (i, &v)| s ^ u32::from(v) << (8 * (i % 4)))
}

/// Bytes to symbols; only what packing can give is taken.
pub fn unpack(b: u32, m: u32, bytes: &[u8]) -> Answer<Vec<u8>> {
    limits(b, m)?;
    if bytes.len() != packed_length(b, m) {
        return Err(10);
    }
    let z = 8 / b;
    let mut out = Vec::new();
    for (k, &v) in bytes.iter().enumerate() {
        let count = z.min(m - k as u32 * z);
        let mut rest = u32::from(v);
        for _ in 0..count {
            out.push((rest % (1 << b)) as u8);
            rest >>= b;
        }
        if rest != 0 {
            return Err(11);
        }
    }
    Ok(out)
}

/// Packing into a lent output, as a caller in Rust would write it.
#[inline(never)]
pub fn pack_to(b: u32, m: u32, x: &[u8], out: &mut [u8]) -> Answer<usize> {
    limits(b, m)?;
    if x.len() != m as usize {
        return Err(10);
    }
    if !symbols_fit(b, x) {
        return Err(11);
    }
    let n = packed_length(b, m);
    if out.len() < n {
        return Err(13);
    }
    let z = (8 / b) as usize;
    for (byte, cs) in out.iter_mut().zip(x.chunks(z)) {
        *byte = cs.iter().rev().fold(0u32, |v, &c| (v << b) | u32::from(c)) as u8;
    }
    Ok(n)
}

/// Unpacking into a lent output.
#[inline(never)]
pub fn unpack_to(b: u32, m: u32, bytes: &[u8], out: &mut [u8]) -> Answer<usize> {
    limits(b, m)?;
    if bytes.len() != packed_length(b, m) {
        return Err(10);
    }
    let z = 8 / b;
    for (k, &v) in bytes.iter().enumerate() {
        let count = z.min(m - k as u32 * z);
        if u32::from(v) >> (b * count) != 0 {
            return Err(11);
        }
    }
    if out.len() < m as usize {
        return Err(13);
    }
    for (&v, cs) in bytes.iter().zip(out[..m as usize].chunks_mut(z as usize)) {
        let mut rest = u32::from(v);
        for c in cs {
            *c = (rest % (1 << b)) as u8;
            rest >>= b;
        }
    }
    Ok(m as usize)
}
