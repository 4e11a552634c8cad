//! How long a call takes at worst: 65,535 pages, 262,144 nodes. Each call is timed by itself, on the same tables as often as `PASSES`, and the
//! median of these is its time; printed are the median and the most over the calls. Before each 4 MB of other memory are read.
//!
//!     bench_worst           all
//!     bench_worst short     the calls too short to be timed singly
use std::hint::black_box;
use std::time::Instant;
use vetchdawn_tests::calls;
use vetchdawn_tests::random::Random;
use vetchdawn_tests::tables::{Settings, Tables};
use vetchdawn_tests::timing::{median, Watch};
use vetchdawn_tests::written::write_one_leaf;

const PAGES: usize = 65_535;
const NODES: u32 = 262_144;
const PASSES: usize = 5;
/// Where the threshold of level 0 stands in the settings table.
const LEVEL_0: usize = 6;

fn most(times: &[f64]) -> f64 {
    times.iter().copied().fold(0.0, f64::max)
}

fn print(call: &str, tables: &str, times: Vec<f64>) {
    let most = most(&times);
    println!("{call:28} {tables:36} {:12.1} {most:12.1}", median(times));
}

fn settings(b: u32, m: u32, q: u32, threshold: u16) -> Settings {
    Settings { b, m, q, pages: PAGES as u32, nodes: NODES, thresholds: vec![threshold; 64] }
}

fn name(s: &Settings) -> String {
    format!("b {} m {} q {} threshold {}", s.b, s.m, s.q, s.thresholds[0])
}

fn sketches(s: &Settings) -> Vec<Vec<u8>> {
    let mut random = Random::new(3);
    (0..PAGES).map(|_| random.bytes(s.m as usize, 1 << s.b)).collect()
}

fn shuffled() -> Vec<usize> {
    let (mut random, mut pages) = (Random::new(5), (0..PAGES).collect::<Vec<_>>());
    for i in (1..pages.len()).rev() {
        pages.swap(i, random.below(i as u64 + 1) as usize);
    }
    pages
}

/// Opened, with all classes open to reader 0.
fn opened(s: &Settings) -> Tables {
    let mut t = Tables::filled_with(0, s);
    assert_eq!(calls::open(&mut t, s), 0);
    assert_eq!(calls::join(&mut t, 0, 0), 0);
    (0..64).for_each(|class| assert_eq!(calls::grant(&mut t, 0, class), 0));
    t
}

fn is_sound(t: &mut Tables) -> bool {
    calls::check(&mut t.lend()) == (0, true)
}

/// Random pages, as added in any order.
fn filled(s: &Settings) -> Tables {
    let (mut t, sketches) = (opened(s), sketches(s));
    shuffled().into_iter().for_each(|p| assert_eq!(calls::add(&mut t.lend(), p as u32, 0, &sketches[p]), 0));
    t
}

/// One leaf a tree, as adds of these pages in this order give it where no leaf is split.
fn one_leaf(s: &Settings, order: &[usize]) -> Tables {
    let (mut t, sketches) = (opened(s), sketches(s));
    let order: Vec<u32> = order.iter().map(|&p| p as u32).collect();
    write_one_leaf(&mut t, s, &order, |_| 0, |p| sketches[p as usize].clone());
    assert!(is_sound(&mut t));
    t
}

/// Searches at every radius, for a random sketch and for those of two pages; the slowest radius of each.
fn searches(watch: &Watch, s: &Settings, t: &mut Tables) {
    let random = Random::new(8).bytes(s.m as usize, 1 << s.b);
    let m = s.m as usize;
    let queries = [random, t.sketches[..m].to_vec(), t.sketches[PAGES / 2 * m..][..m].to_vec()];
    let (mut pages, mut distances) = (vec![0u16; PAGES], vec![0u16; PAGES]);
    let mut search = |radius: u32, query: &[u8]| {
        let mut listed = 0;
        let mut once = || watch.alone(|| listed = calls::search(&mut t.lend(), 0, radius, query, &mut pages, &mut distances).value);
        let time = median((0..PASSES).map(|_| once()).collect());
        (time, radius, listed)
    };
    let times: Vec<(f64, u32, u32)> = (0..=64).flat_map(|radius| queries.iter().map(move |query| (radius, query))).map(|(r, x)| search(r, x)).collect();
    let worst = times.iter().max_by(|x, y| x.0.total_cmp(&y.0)).unwrap();
    print("search, every radius", &name(s), times.iter().map(|time| time.0).collect());
    let all: Vec<f64> = times.iter().filter(|time| time.1 == 64).map(|time| time.0).collect();
    println!("    the slowest: radius {}, {} listed; radius 64, all listed: {:.1}", worst.1, worst.2, most(&all));
}

fn checks(watch: &Watch, s: &Settings, t: &mut Tables) {
    print("check", &name(s), (0..PASSES).map(|_| watch.alone(|| assert!(is_sound(t)))).collect());
}

/// Tables that were used already are opened again.
fn openings(watch: &Watch, s: &Settings, t: &mut Tables) {
    print("open", &name(s), (0..PASSES).map(|_| watch.alone(|| assert_eq!(calls::open(t, s), 0))).collect());
}

fn readings() {
    let watch = &Watch::default();
    for (b, m, q, threshold) in [(4, 32, 4, 8), (4, 32, 4, 2), (1, 64, 8, 32), (1, 64, 4, 8), (8, 64, 4, 2), (8, 64, 8, 300)] {
        let s = settings(b, m, q, threshold);
        let mut t = filled(&s);
        searches(watch, &s, &mut t);
        checks(watch, &s, &mut t);
        openings(watch, &s, &mut t);
    }
    for q in [1, 8] {
        let s = settings(8, 64, q, 65_535);
        let mut t = one_leaf(&s, &shuffled());
        searches(watch, &s, &mut t);
        checks(watch, &s, &mut t);
    }
}

/// The times of a row of calls on tables, call by call: the same row again on a copy of the tables, the median of each call.
fn row(watch: &Watch, t: &Tables, calls: usize, mut call: impl FnMut(&mut Tables, usize) -> u32) -> Vec<f64> {
    let mut pass = || {
        let mut t = t.clone();
        (0..calls).map(|i| watch.alone(|| assert_eq!(call(&mut t, i), 0))).collect::<Vec<f64>>()
    };
    let passes: Vec<Vec<f64>> = (0..PASSES).map(|_| pass()).collect();
    (0..calls).map(|i| median(passes.iter().map(|pass| pass[i]).collect())).collect()
}

/// The last adds and the first drops of a full index.
const LAST: usize = 1_000;

fn ordinary_changes() {
    let watch = &Watch::default();
    for (b, m, q, threshold) in [(4, 32, 4, 8), (4, 32, 4, 32), (4, 32, 4, 128), (1, 64, 4, 32), (1, 64, 8, 32)] {
        let s = settings(b, m, q, threshold);
        let (sketches, order) = (sketches(&s), shuffled());
        let full = filled(&s);
        let mut less = full.clone();
        order[PAGES - LAST..].iter().for_each(|&p| assert_eq!(calls::drop(&mut less.lend(), p as u32), 0));
        let last = |i: usize| order[PAGES - LAST + i];
        print("add, the last 1,000", &name(&s), row(watch, &less, LAST, |t, i| calls::add(&mut t.lend(), last(i) as u32, 0, &sketches[last(i)])));
        print("drop, of the full index", &name(&s), row(watch, &full, LAST, |t, i| calls::drop(&mut t.lend(), order[i] as u32)));
    }
}

/// One leaf of 65,534 pages in each tree: a further page, without a split and with it; and drops of the page that was added first.
fn great_leaves() {
    let watch = &Watch::default();
    for q in [1, 4, 8] {
        let s = settings(8, 64, q, 65_535);
        let (order, sketches) = (shuffled(), sketches(&s));
        let last = order[PAGES - 1];
        let mut t = one_leaf(&s, &order[..PAGES - 1]);
        let add = |t: &mut Tables, _: usize| calls::add(&mut t.lend(), last as u32, 0, &sketches[last]);
        print("add, one leaf of all pages", &name(&s), row(watch, &t, 1, add));
        t.settings[LEVEL_0] = PAGES as u32 - 1;
        print("add that splits this leaf", &name(&settings(8, 64, q, 65_534)), row(watch, &t, 1, add));
        let full = one_leaf(&s, &order);
        print("drop, one leaf of all pages", &name(&s), row(watch, &full, 1, |t, _| calls::drop(&mut t.lend(), order[0] as u32)));
    }
}

/// A path of 64 inner nodes, each with 32 children in the chain that the path goes on in, its own child the last; then equal pages at its end.
fn deep() {
    let watch = &Watch::default();
    let s = settings(8, 64, 1, 0);
    let mut t = opened(&s);
    let path = [31u8; 64];
    let others: Vec<Vec<u8>> = (0..64).flat_map(|k| (0..31).map(move |v| (k, v))).map(|(k, v)| [&path[..k], &[v], &path[k + 1..]].concat()).collect();
    let equal = 0..64;
    equal.clone().for_each(|p| assert_eq!(calls::add(&mut t.lend(), p, 0, &path), 0));
    others.iter().zip(64..).for_each(|(x, p)| assert_eq!(calls::add(&mut t.lend(), p, 0, x), 0));
    let next = 64 + others.len() as u32;
    print("add, 64 levels of 32", "b 8 m 64 q 1 threshold 0", row(watch, &t, 64, |t, i| calls::add(&mut t.lend(), next + i as u32, 0, &path)));
    // the last of the equal pages takes the leaf with it
    print("drop, 64 levels of 32", "b 8 m 64 q 1 threshold 0", row(watch, &t, 64, |t, i| calls::drop(&mut t.lend(), i as u32)));
    // equal pages alone: the last drop takes out the whole path
    let mut alone = opened(&s);
    equal.for_each(|p| assert_eq!(calls::add(&mut alone.lend(), p, 0, &path), 0));
    print("drop, 64 nodes given back", "b 8 m 64 q 1 threshold 0", row(watch, &alone, 64, |t, i| calls::drop(&mut t.lend(), i as u32)));
}

/// Nanoseconds of calls too short to be timed singly: rounds of 1,000, the median round and the slowest of the fastest 99 in a hundred.
fn short(call: &str, mut work: impl FnMut(u32) -> u32) {
    let mut round = || {
        let start = Instant::now();
        let sum = (0..1_000).fold(0u32, |sum, i| sum.wrapping_add(work(black_box(i))));
        black_box(sum);
        start.elapsed().as_nanos() as f64 / 1_000.0
    };
    let mut times: Vec<f64> = (0..2_000).map(|_| round()).collect();
    times.sort_by(f64::total_cmp);
    println!("{call:28} {:12.1} {:12.1}", times[1_000], times[1_980]);
}

fn short_calls() {
    let s = settings(1, 64, 4, 32);
    let mut t = filled(&s);
    short("join", |i| calls::join(&mut t, i % 256, i % 32));
    short("leave", |i| calls::leave(&mut t, 1 + i % 255, i % 32));
    short("grant", |i| calls::grant(&mut t, i % 32, i % 64));
    short("revoke", |i| calls::revoke(&mut t, 1 + i % 31, i % 64));
    short("show, open", |i| calls::show(&mut t, 0, i * 64).unwrap().0 as u32);
    short("show, refused by 9", |i| calls::show(&mut t, 7, i * 64).unwrap_err());
    short("lengths", |i| calls::lengths(&Settings { pages: 1 + i, ..s.clone() }).0);
    let sketches: Vec<Vec<u8>> = sketches(&s).into_iter().take(1_001).collect();
    let mut out = [0; 64];
    short("measure, b 1 m 64", |i| calls::measure(1, 64, &sketches[i as usize], &sketches[i as usize + 1]).value);
    short("pack, b 1 m 64", |i| calls::pack(1, 64, &sketches[i as usize], &mut out).value);
    let packed = [0x5au8; 8];
    short("unpack, b 1 m 64", |_| calls::unpack(1, 64, black_box(&packed), &mut out).value);
    let command = [&[0x41u8, 0, 0, 3][..], &sketches[0]].concat();
    short("form, an add, m 64", |_| calls::form(64, 0, black_box(&command)));
}

fn main() {
    if std::env::args().nth(1).as_deref() != Some("short") {
        long_calls();
    }
    println!("Nanoseconds a call, in rounds of 1,000: the median round, and the slowest but for one in a hundred.");
    short_calls();
}

fn long_calls() {
    println!("Microseconds a call, 65,535 pages of random sketches, capacity for 262,144 nodes; 4 MB of other memory are read before each.");
    println!("call                         tables                                     median         most");
    readings();
    ordinary_changes();
    great_leaves();
    deep();
}
