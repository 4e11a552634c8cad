//! Add and drop against a plain pointer-based trie: both built for release, interleaved in one run, medians as ratios.
use std::time::Instant;
use vetchdawn_tests::baselines::Pointers;
use vetchdawn_tests::calls;
use vetchdawn_tests::random::Random;
use vetchdawn_tests::stores::Sketches;
use vetchdawn_tests::tables::{Settings, Tables};
use vetchdawn_tests::timing::median;

const PAGES: usize = 65_535;
const ROUNDS: usize = 7;

fn opened(s: &Settings) -> Tables {
    let mut t = Tables::filled_with(0, s);
    assert_eq!(calls::open(&mut t, s), 0);
    t
}

fn shuffled(random: &mut Random, pages: u32) -> Vec<u32> {
    let mut pages: Vec<u32> = (0..pages).collect();
    for i in (1..pages.len()).rev() {
        pages.swap(i, random.below(i as u64 + 1) as usize);
    }
    pages
}

/// Each sketch is that of `group` pages in a row: the drop of the last of them is timed.
fn run(name: &str, s: &Settings, sketches: &[Vec<u8>], group: u32) {
    let mut random = Random::new(5);
    let sketch = |p: u32| &sketches[(p / group) as usize];
    let adds = shuffled(&mut random, s.pages);
    let (drops, before): (Vec<u32>, Vec<u32>) = shuffled(&mut random, s.pages).into_iter().partition(|p| p % group == 0);
    let mut times = [const { Vec::new() }; 4];
    for _ in 0..ROUNDS {
        let mut t = opened(s);
        let mut plain = Pointers::new(s.b, s.m as usize, s.q as usize, s.pages as usize, s.thresholds[0]);
        let mut lent = t.lend();
        let each = |start: Instant, pages: &[u32]| start.elapsed().as_nanos() as f64 / pages.len() as f64;
        let start = Instant::now();
        for &p in &adds {
            assert_eq!(calls::add(&mut lent, p, p % 64, sketch(p)), 0);
        }
        times[0].push(each(start, &adds));
        let start = Instant::now();
        for &p in &adds {
            assert!(plain.add(p, (p % 64) as u8, sketch(p)));
        }
        times[1].push(each(start, &adds));
        assert!(before.iter().all(|&p| calls::drop(&mut lent, p) == 0 && plain.drop(p)));
        let start = Instant::now();
        for &p in &drops {
            assert_eq!(calls::drop(&mut lent, p), 0);
        }
        times[2].push(each(start, &drops));
        let start = Instant::now();
        for &p in &drops {
            assert!(plain.drop(p));
        }
        times[3].push(each(start, &drops));
    }
    let [a, b, c, d] = times.map(median);
    println!("add   {name:10} {a:8.0} ns   {b:8.0} ns   {:.2}", a / b);
    println!("drop  {name:10} {c:8.0} ns   {d:8.0} ns   {:.2}", c / d);
}

fn main() {
    println!("65,535 pages, b 4, m 32, q 4, threshold 32");
    println!("deep: threshold 0, drops that take out a chain of inner nodes in each block; chain: 32,000 pages, b 8, m 64, q 1, chains of 63");
    println!("call  sketches   this library   pointer trie   ratio");
    let s = Settings { b: 4, m: 32, q: 4, pages: PAGES as u32, nodes: 262_144, thresholds: vec![32; 64] };
    let mut random = Random::new(4);
    let any: Vec<Vec<u8>> = (0..PAGES).map(|_| random.bytes(32, 16)).collect();
    run("random", &s, &any, 1);
    let centres = Sketches::new(&mut random, 4, 32, 600);
    let alike: Vec<Vec<u8>> = (0..PAGES).map(|_| centres.near(&mut random, 6)).collect();
    run("clustered", &s, &alike, 1);
    let s = Settings { thresholds: vec![0; 64], ..s };
    run("deep", &s, &any, 8);
    let s = Settings { b: 8, m: 64, q: 1, pages: 32_000, ..s };
    let long: Vec<Vec<u8>> = (0..500).map(|_| random.bytes(64, 256)).collect();
    run("chain", &s, &long, 64);
}
