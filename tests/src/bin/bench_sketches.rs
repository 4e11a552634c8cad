//! Measuring and packing against plain Rust that makes the same checks: both built for release, interleaved in one run, medians as ratios.
use std::hint::black_box;
use std::time::Instant;
use vetchdawn_tests::random::Random;
use vetchdawn_tests::timing::median;
use vetchdawn_tests::{calls, plain};

const PAIRS: usize = 4096;
const ROUNDS: usize = 41;

/// Nanoseconds a call, over all pairs.
fn timed(mut work: impl FnMut() -> u64) -> f64 {
    let start = Instant::now();
    black_box(work());
    start.elapsed().as_nanos() as f64 / PAIRS as f64
}

type Work<'a> = &'a mut dyn FnMut() -> u64;

/// The library's time, then each plain program's with the library's as a ratio to it.
fn row(name: &str, b: u32, m: u32, ours: Work, theirs: &mut [Work]) {
    let mut own = Vec::new();
    let mut plain = vec![Vec::new(); theirs.len()];
    for _ in 0..ROUNDS {
        own.push(timed(&mut *ours));
        for (times, work) in plain.iter_mut().zip(&mut *theirs) {
            times.push(timed(work));
        }
    }
    let own = median(own);
    print!("{name:8} b {b} m {m:2}   {own:7.1} ns");
    for times in plain {
        let time = median(times);
        print!("   {time:7.1} ns   {:.2}", own / time);
    }
    println!();
}

fn main() {
    println!("call               this library   plain Rust   ratio   to the end   ratio");
    for (b, m) in [(4, 32), (2, 64), (8, 32), (1, 64), (3, 17)] {
        let mut random = Random::new(u64::from(b * 100 + m));
        let sketches: Vec<Vec<u8>> = (0..=PAIRS).map(|_| random.bytes(m as usize, 1 << b)).collect();
        let packed: Vec<Vec<u8>> = sketches.iter().map(|x| plain::pack(b, m, x).unwrap()).collect();
        let mut out = [0u8; 64];
        let pairs = || sketches.windows(2);
        row(
            "measure",
            b,
            m,
            &mut || pairs().map(|w| u64::from(calls::measure(b, m, &w[0], &w[1]).value)).sum(),
            &mut [
                &mut || pairs().map(|w| u64::from(plain::measure_by_places(black_box(b), black_box(m), &w[0], &w[1]).unwrap())).sum(),
                &mut || pairs().map(|w| u64::from(plain::measure_to_the_end(black_box(b), black_box(m), &w[0], &w[1]).unwrap())).sum(),
            ],
        );
        row(
            "pack",
            b,
            m,
            &mut || sketches.iter().map(|x| u64::from(calls::pack(b, m, x, &mut out).value)).sum(),
            &mut [&mut || sketches.iter().map(|x| plain::pack_to(black_box(b), black_box(m), x, &mut [0u8; 64]).unwrap() as u64).sum()],
        );
        row(
            "unpack",
            b,
            m,
            &mut || packed.iter().map(|x| u64::from(calls::unpack(b, m, x, &mut out).value)).sum(),
            &mut [&mut || packed.iter().map(|x| plain::unpack_to(black_box(b), black_box(m), x, &mut [0u8; 64]).unwrap() as u64).sum()],
        );
    }
}
