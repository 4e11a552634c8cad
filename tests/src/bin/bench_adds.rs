//! Adds and drops by threshold: 65,535 pages of random sketches, added and then dropped, in any two orders. The median of some rounds; of one
//! round where a drop takes long.
use std::time::Instant;
use vetchdawn_tests::calls;
use vetchdawn_tests::random::Random;
use vetchdawn_tests::tables::{Settings, Tables};
use vetchdawn_tests::timing::median;

const PAGES: usize = 65_535;
const ROUNDS: usize = 3;
/// The last adds and the first drops, which meet the fullest tables.
const FULL: usize = 100;
/// With thresholds from here on there is one round.
const LONG: u16 = 65_535;

fn shuffled(random: &mut Random) -> Vec<u32> {
    let mut pages: Vec<u32> = (0..PAGES as u32).collect();
    for i in (1..pages.len()).rev() {
        pages.swap(i, random.below(i as u64 + 1) as usize);
    }
    pages
}

/// Nanoseconds a call.
fn each(pages: &[u32], mut call: impl FnMut(u32) -> u32) -> f64 {
    let start = Instant::now();
    pages.iter().for_each(|&p| assert_eq!(call(p), 0));
    start.elapsed().as_nanos() as f64 / pages.len() as f64
}

/// The mean of two means, by their pages.
fn mean(times: [f64; 2], pages: [usize; 2]) -> f64 {
    (times[0] * pages[0] as f64 + times[1] * pages[1] as f64) / (pages[0] + pages[1]) as f64
}

/// All adds, the last of them, all drops, the first of them.
fn round(s: &Settings, sketches: &[Vec<u8>], adds: &[u32], drops: &[u32]) -> [f64; 4] {
    let mut t = Tables::filled_with(0, s);
    assert_eq!(calls::open(&mut t, s), 0);
    let mut lent = t.lend();
    let (before, last) = adds.split_at(PAGES - FULL);
    let (first, rest) = drops.split_at(FULL);
    let mut add = |p: u32| calls::add(&mut lent, p, p % 64, &sketches[p as usize]);
    let added = [each(before, &mut add), each(last, &mut add)];
    let mut drop = |p: u32| calls::drop(&mut lent, p);
    let dropped = [each(first, &mut drop), each(rest, &mut drop)];
    let lengths = [PAGES - FULL, FULL];
    [mean(added, lengths), added[1], mean(dropped, [FULL, PAGES - FULL]), dropped[0]]
}

fn run(b: u32, m: u32, q: u32, threshold: u16) {
    let s = Settings { b, m, q, pages: PAGES as u32, nodes: 262_144, thresholds: vec![threshold; 64] };
    let mut random = Random::new(6);
    let sketches: Vec<Vec<u8>> = (0..PAGES).map(|_| random.bytes(m as usize, 1 << b)).collect();
    let (adds, drops) = (shuffled(&mut random), shuffled(&mut random));
    let rounds = if threshold < LONG { ROUNDS } else { 1 };
    let times: Vec<[f64; 4]> = (0..rounds).map(|_| round(&s, &sketches, &adds, &drops)).collect();
    print!("{b} {m:2} {q} {threshold:6}");
    (0..4).for_each(|i| print!(" {:12.0}", median(times.iter().map(|time| time[i]).collect())));
    println!();
}

fn main() {
    println!("Nanoseconds an add and a drop, 65,535 pages of random sketches, in any order. last, first: the mean of the last 100 adds, the first 100 drops.");
    println!("b  m q      t     adds, all         last   drops, all        first");
    for (b, m) in [(4, 32), (1, 64)] {
        for (q, threshold) in [1, 4].into_iter().flat_map(|q| [8, 32, 128, 1_000, 10_000, 65_535].map(|threshold| (q, threshold))) {
            run(b, m, q, threshold);
        }
    }
}
