//! Measuring, packing and unpacking through C, against plain Rust.
use vetchdawn_tests::calls::{self, Given};
use vetchdawn_tests::guard::Guarded;
use vetchdawn_tests::plain;
use vetchdawn_tests::random::Random;

fn given(number: u32, value: usize) -> Given {
    Given { number, value: value as u32 }
}

/// A length that is right, or one off, or anything.
fn length_near(random: &mut Random, right: usize) -> usize {
    match random.below(8) {
        0 => right.saturating_sub(1),
        1 => right + 1,
        2 => random.below(80) as usize,
        _ => right,
    }
}

/// Symbols below 2^b, now and then with one at or past the limit.
fn symbols(random: &mut Random, b: u32, n: usize) -> Vec<u8> {
    let limit = 1u64 << b.min(8);
    let mut x = random.bytes(n, limit);
    if n > 0 && b < 8 && random.below(6) == 0 {
        let at = random.below(n as u64) as usize;
        x[at] = if random.below(2) == 0 { limit as u8 } else { random.below(256) as u8 };
    }
    x
}

/// Settings: mostly within the limits.
fn settings(random: &mut Random) -> (u32, u32) {
    let b = if random.below(16) == 0 { [0, 9, 255, u32::MAX][random.below(4) as usize] } else { 1 + random.below(8) as u32 };
    let m = if random.below(16) == 0 { [0, 65, 256, u32::MAX][random.below(4) as usize] } else { 1 + random.below(64) as u32 };
    (b, m)
}

fn known(n: u32, most: u32) -> u32 {
    n.clamp(1, most)
}

/// With a guard behind either sketch; and the plain programs of the benchmark answer the same.
#[test]
fn measuring() {
    let mut random = Random::new(1);
    let mut lent = [Guarded::new(&[0u8; 80]), Guarded::new(&[0u8; 80])];
    for _ in 0..400_000 {
        let (b, m) = settings(&mut random);
        let near = known(m, 64) as usize;
        let n = length_near(&mut random, near);
        let k = length_near(&mut random, near);
        let x = symbols(&mut random, known(b, 8), n);
        let mut y = symbols(&mut random, known(b, 8), k);
        for i in 0..n.min(k) {
            if random.below(3) > 0 {
                y[i] = x[i];
            }
        }
        lent[0].set(&x);
        lent[1].set(&y);
        let plain = plain::measure(b, m, &x, &y);
        let want = match plain {
            Ok(d) => given(0, d as usize),
            Err(number) => given(number, 0),
        };
        assert_eq!(calls::measure(b, m, lent[0].get(), lent[1].get()), want, "b {b} m {m} {x:?} {y:?}");
        assert_eq!(plain::measure_by_places(b, m, &x, &y), plain, "b {b} m {m} {x:?} {y:?}");
        assert_eq!(plain::measure_to_the_end(b, m, &x, &y), plain, "b {b} m {m} {x:?} {y:?}");
    }
}

/// Every b and m, and each place of either sketch: the difference there is counted, and a symbol out of range there is refused, with a
/// difference at every place or at none, but only where both lengths are right.
#[test]
fn every_place() {
    for b in 1..=8u32 {
        for m in 1..=64u32 {
            let zeros = vec![0u8; m as usize];
            let ones = vec![1u8; m as usize];
            for i in 0..m as usize {
                let mut x = zeros.clone();
                x[i] = 1;
                assert_eq!(calls::measure(b, m, &x, &zeros), given(0, 1), "b {b} m {m} place {i}");
                assert_eq!(calls::measure(b, m, &ones, &x), given(0, m as usize - 1), "b {b} m {m} place {i}");
                for high in (1 << b..256u32).step_by(1 << b) {
                    x[i] = high as u8;
                    for other in [&zeros, &ones, &x.clone()] {
                        assert_eq!(calls::measure(b, m, &x, other), given(11, 0), "b {b} m {m} place {i} {high}");
                        assert_eq!(calls::measure(b, m, other, &x), given(11, 0), "b {b} m {m} place {i} {high}");
                        assert_eq!(calls::measure(b, m, &x, &other[1..]), given(10, 0), "b {b} m {m} place {i} {high}");
                        assert_eq!(calls::measure(b, m, &other[1..], &x), given(10, 0), "b {b} m {m} place {i} {high}");
                    }
                }
            }
        }
    }
}

#[test]
fn packing() {
    let mut random = Random::new(2);
    for _ in 0..400_000 {
        let (b, m) = settings(&mut random);
        let n = length_near(&mut random, known(m, 64) as usize);
        let x = symbols(&mut random, known(b, 8), n);
        let needed = plain::packed_length(known(b, 8), known(m, 64));
        let room = length_near(&mut random, needed);
        let mut out = random.bytes(room, 256);
        let mut want_out = out.clone();
        let want = match plain::pack(b, m, &x) {
            Err(number) => given(number, 0),
            Ok(bytes) if bytes.len() > room => given(13, bytes.len()),
            Ok(bytes) => {
                want_out[..bytes.len()].copy_from_slice(&bytes);
                given(0, bytes.len())
            }
        };
        assert_eq!(calls::pack(b, m, &x, &mut out), want, "b {b} m {m} {x:?} room {room}");
        assert_eq!(out, want_out, "b {b} m {m} {x:?} room {room}");
    }
}

#[test]
fn unpacking() {
    let mut random = Random::new(3);
    for _ in 0..400_000 {
        let (b, m) = settings(&mut random);
        let x = random.bytes(known(m, 64) as usize, 1 << known(b, 8));
        let mut bytes = plain::pack(known(b, 8), known(m, 64), &x).unwrap();
        match random.below(6) {
            0 => {
                bytes.pop();
            }
            1 => bytes.push(0),
            2 => {
                let at = random.below(bytes.len() as u64) as usize;
                bytes[at] ^= 1 << random.below(8);
            }
            3 => bytes = random.bytes(bytes.len(), 256),
            _ => {}
        }
        let room = length_near(&mut random, x.len());
        let mut out = random.bytes(room, 256);
        let mut want_out = out.clone();
        let want = match plain::unpack(b, m, &bytes) {
            Err(number) => given(number, 0),
            Ok(symbols) if symbols.len() > room => given(13, symbols.len()),
            Ok(symbols) => {
                want_out[..symbols.len()].copy_from_slice(&symbols);
                given(0, symbols.len())
            }
        };
        assert_eq!(calls::unpack(b, m, &bytes, &mut out), want, "b {b} m {m} {bytes:?} room {room}");
        assert_eq!(out, want_out, "b {b} m {m} {bytes:?} room {room}");
    }
}

/// Every b and m: each symbol at its limit, and packing undone by unpacking.
#[test]
fn every_setting() {
    for b in 1..=8u32 {
        for m in 1..=64u32 {
            let x: Vec<u8> = (0..m).map(|i| ((i * 37 + b) % (1 << b)) as u8).collect();
            let mut bytes = vec![0xaa; plain::packed_length(b, m)];
            assert_eq!(calls::pack(b, m, &x, &mut bytes), given(0, bytes.len()));
            let mut back = vec![0xbb; m as usize];
            assert_eq!(calls::unpack(b, m, &bytes, &mut back), given(0, m as usize));
            assert_eq!(back, x);
            if b < 8 {
                let mut high = x.clone();
                high[m as usize - 1] = 1 << b;
                assert_eq!(calls::pack(b, m, &high, &mut bytes), given(11, 0));
                assert_eq!(calls::measure(b, m, &x, &high), given(11, 0));
                assert_eq!(calls::measure(b, m, &high, &x[1..]), given(10, 0));
            }
        }
    }
}

#[test]
fn worked_sums() {
    let mut out = [9u8; 3];
    assert_eq!(calls::pack(2, 4, &[0, 1, 2, 3], &mut out), given(0, 1));
    assert_eq!(out, [228, 9, 9]);
    assert_eq!(calls::measure(2, 4, &[0, 1, 2, 3], &[0, 1, 3, 2]), given(0, 2));
    assert_eq!(calls::pack(3, 3, &[5, 6, 7], &mut out), given(0, 2));
    assert_eq!(out, [53, 7, 9]);
    assert_eq!(calls::unpack(3, 2, &[64], &mut out), given(11, 0));
}
