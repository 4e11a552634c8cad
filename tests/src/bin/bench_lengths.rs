//! Adds, drops and searches by the number of pages in a leaf: leaves of up to 65,000 pages, and indexes of random sketches. Beside the library a
//! pointer trie, in whose leaves the pages are contiguous behind their number; the two in turn, medians of the rounds, as ratios.
//!
//!     bench_lengths          all, beside the pointer trie
//!     bench_lengths own      the library's times alone: what was called, then nanoseconds
//!     bench_lengths count add|drop threshold n calls         so many adds into a leaf of n pages, each with its drop, for an instruction count
//!     bench_lengths count load|unload threshold n calls      an index of n pages, filled, or emptied
//!     bench_lengths count search threshold n radius searches    of an index of n pages: of one leaf, where the threshold is 65,535
use std::hint::black_box;
use std::time::Instant;
use vetchdawn_tests::baselines::cases::empty;
use vetchdawn_tests::baselines::{Case, Hits, Kind, Library, Pages, Pointers, Way, OPEN};
use vetchdawn_tests::calls;
use vetchdawn_tests::random::Random;
use vetchdawn_tests::tables::{Settings, Tables};
use vetchdawn_tests::timing::median;
use vetchdawn_tests::written::write_one_leaf;

const PAGES: usize = 65_535;
const NODES: u32 = 262_144;
/// Of sketches.
const B: u32 = 4;
const M: usize = 32;
/// The blocks of an index; one leaf has one.
const Q: usize = 4;
/// The threshold with which there is one leaf.
const ONE_LEAF: u16 = 65_535;
/// Thresholds, and pages in the leaf.
const LEAVES: [(u16, usize); 8] = [
    (32, 31),
    (1_000, 31),
    (1_000, 999),
    (ONE_LEAF, 31),
    (ONE_LEAF, 999),
    (ONE_LEAF, 1_000),
    (ONE_LEAF, 10_000),
    (ONE_LEAF, 65_000),
];
/// Thresholds, and pages in the index.
const INDEXES: [(u16, usize); 4] = [(32, 1_000), (1_000, 1_000), (32, PAGES), (1_000, PAGES)];
const RADII: [u32; 3] = [0, 1, 4];

/// What is timed: the library, or the trie.
trait Store: Way {
    fn add(&mut self, page: u32, class: u8, sketch: &[u8]) -> bool;
    fn drop(&mut self, page: u32) -> bool;
}

impl Store for Library {
    fn add(&mut self, page: u32, class: u8, sketch: &[u8]) -> bool {
        calls::add(&mut self.tables.lend(), page, class.into(), sketch) == 0
    }

    fn drop(&mut self, page: u32) -> bool {
        calls::drop(&mut self.tables.lend(), page) == 0
    }
}

impl Store for Pointers {
    fn add(&mut self, page: u32, class: u8, sketch: &[u8]) -> bool {
        Pointers::add(self, page, class, sketch)
    }

    fn drop(&mut self, page: u32) -> bool {
        Pointers::drop(self, page)
    }
}

fn settings(q: usize, pages: usize, threshold: u16) -> Settings {
    let nodes = if pages == PAGES { NODES } else { 10 * pages as u32 };
    Settings { b: B, m: M as u32, q: q as u32, pages: pages as u32, nodes, thresholds: vec![threshold; 64] }
}

fn opened(s: &Settings) -> Tables {
    let mut t = empty(s);
    assert_eq!(calls::open(&mut t, s), 0);
    t
}

/// Random sketches and queries.
fn drawn(n: usize) -> (Pages, Vec<Vec<u8>>) {
    Case { n, b: B, m: M, r: 0, q: Q, threshold: 0, kind: Kind::Random, open: OPEN }.pages()
}

fn shuffled(seed: u64, pages: usize) -> Vec<u32> {
    let (mut random, mut order) = (Random::new(seed), (0..pages as u32).collect::<Vec<_>>());
    for i in (1..order.len()).rev() {
        order.swap(i, random.below(i as u64 + 1) as usize);
    }
    order
}

/// A leaf of the first n pages, with room for all.
fn one_leaf(threshold: u16, n: usize, pages: &Pages) -> Library {
    let s = settings(1, PAGES, threshold);
    let mut t = opened(&s);
    write_one_leaf(&mut t, &s, &shuffled(1, n), |p| pages.classes[p as usize].into(), |p| pages.sketch(p as usize).to_vec());
    let mut library = Library::with_tables(t, OPEN, 1);
    assert!(library.is_sound());
    library
}

fn trie(q: usize, threshold: u16, capacity: usize, n: usize, pages: &Pages) -> Pointers {
    let mut trie = Pointers::new(B, M, q, capacity, threshold);
    (0..n).for_each(|p| assert!(trie.add(p as u32, pages.classes[p], pages.sketch(p))));
    trie
}

/// Without pages.
fn fresh(threshold: u16, n: usize) -> Library {
    Library::with_tables(opened(&settings(Q, n, threshold)), OPEN, 1)
}

/// All n pages, in an order.
fn fill(store: &mut dyn Store, pages: &Pages, order: &[u32]) {
    order.iter().for_each(|&p| assert!(store.add(p, pages.classes[p as usize], pages.sketch(p as usize))));
}

fn empty_out(store: &mut dyn Store, order: &[u32]) {
    order.iter().for_each(|&p| assert!(store.drop(p)));
}

/// The mean of the middle four fifths: the clock's steps are of some nanoseconds, which a median does not see through.
fn middle(mut times: Vec<f64>) -> f64 {
    times.sort_by(f64::total_cmp);
    let tenth = times.len() / 10;
    let middle = &times[tenth..times.len() - tenth];
    middle.iter().sum::<f64>() / middle.len() as f64
}

/// Nanoseconds of one call with the clock's.
fn single(work: impl FnOnce()) -> f64 {
    let start = Instant::now();
    work();
    start.elapsed().as_nanos() as f64
}

/// Nanoseconds for each of `count` calls.
fn timed(count: usize, work: impl FnOnce()) -> f64 {
    let start = Instant::now();
    work();
    start.elapsed().as_nanos() as f64 / count as f64
}

/// Lines of the library's time and, unless it is alone, the trie's.
struct Print {
    own: bool,
}

impl Print {
    fn line(&self, call: &str, times: &[f64]) {
        match times {
            [library, trie] => println!("{call:44} {library:12.1} {trie:12.1}   {:7.2}", library / trie),
            _ => println!("{call} {:.1}", times[0]),
        }
    }

    /// Some works of each store, a round of them after the other; what each work gives is a row of times, of which the medians are printed.
    fn rounds<const N: usize>(
        &self, rounds: usize, calls: [String; N], stores: &mut [&mut dyn Store], mut work: impl FnMut(&mut dyn Store) -> [f64; N],
    ) {
        let mut times = vec![[const { Vec::new() }; N]; stores.len()];
        for _ in 0..rounds {
            for (store, times) in stores.iter_mut().zip(&mut times) {
                for (time, times) in work(*store).into_iter().zip(times) {
                    times.push(time);
                }
            }
        }
        for (i, call) in calls.iter().enumerate() {
            let medians: Vec<f64> = times.iter().map(|times| median(times[i].clone())).collect();
            self.line(call, &medians);
        }
    }
}

/// The library, and beside it the trie where it is there.
fn both<'a>(library: &'a mut Library, trie: &'a mut Option<Pointers>) -> Vec<&'a mut dyn Store> {
    let beside = trie.iter_mut().map(|trie| trie as &mut dyn Store);
    [library as &mut dyn Store].into_iter().chain(beside).collect()
}

/// A page is put into a leaf and taken out again, which leaves it as it was: each call by itself, and the two together; then pages that stand
/// anywhere in the leaf are taken out and put in again.
fn leaf(print: &Print, pages: &Pages, threshold: u16, n: usize) {
    let clock = middle((0..10_001).map(|_| single(|| ())).collect());
    let (mut library, mut beside) = (one_leaf(threshold, n, pages), (!print.own).then(|| trie(1, threshold, PAGES, n, pages)));
    let calls = if n > 1_000 { 100 } else { 1_000 };
    let spare = n as u32..n as u32 + calls;
    let name = |call: &str| format!("{call} t {threshold} n {n}");
    let add = |store: &mut dyn Store, p: u32| assert!(store.add(p, pages.classes[p as usize], pages.sketch(p as usize)));
    print.rounds(9, ["leaf add", "leaf drop", "leaf add and drop"].map(name), &mut both(&mut library, &mut beside), |store| {
        let mut times = [Vec::new(), Vec::new()];
        for p in spare.clone() {
            times[0].push(single(|| add(store, p)));
            times[1].push(single(|| assert!(store.drop(p))));
        }
        let pairs = timed(calls as usize, || {
            for p in spare.clone() {
                add(store, p);
                assert!(store.drop(p));
            }
        });
        let [added, dropped] = times.map(|times| middle(times) - clock);
        [added, dropped, pairs]
    });
    let mut random = Random::new(2);
    print.rounds(9, [name("leaf drop any")], &mut both(&mut library, &mut beside), |store| {
        let mut once = || {
            let p = random.below(n as u64) as u32;
            let time = single(|| assert!(store.drop(p)));
            add(store, p);
            time
        };
        [middle((0..200).map(|_| once()).collect()) - clock]
    });
    assert!(library.is_sound());
}

/// An index is filled and emptied, and filled again; then some of its pages are dropped and added.
fn changes(print: &Print, threshold: u16, n: usize) {
    let (pages, _) = drawn(n);
    let (mut library, mut beside) = (fresh(threshold, n), (!print.own).then(|| trie(Q, threshold, n, 0, &pages)));
    let (adds, drops) = (shuffled(3, n), shuffled(4, n));
    let stores = if print.own { 1 } else { 2 };
    let times = if n == PAGES { 1 } else { 20 };
    let rounds = if n == PAGES { 3 } else { 9 };
    let name = |call: &str| format!("{call} t {threshold} n {n}");
    print.rounds(rounds, ["index load", "index unload"].map(name), &mut both(&mut library, &mut beside), |store| {
        let mut sums = [0.0; 2];
        for _ in 0..times {
            sums[0] += timed(n, || fill(store, &pages, &adds));
            sums[1] += timed(n, || empty_out(store, &drops));
        }
        sums.map(|sum| sum / times as f64)
    });
    both(&mut library, &mut beside).into_iter().for_each(|store| fill(store, &pages, &adds));
    assert!(library.is_sound());
    let (order, mut turn) = (shuffled(5, n), 0);
    print.rounds(41, ["index add", "index drop"].map(name), &mut both(&mut library, &mut beside), |store| {
        // the library and the trie in turn; of the pages every twentieth part in its turn
        let some = &order[turn / stores % 20 * (n / 20)..][..n / 20];
        turn += 1;
        let dropped = timed(some.len(), || empty_out(store, some));
        [timed(some.len(), || fill(store, &pages, some)), dropped]
    });
    assert!(library.is_sound());
}

/// Searches, of an index or of one leaf: each store answers all queries, then the next one.
fn searches(print: &Print, name: &str, n: usize, library: &mut Library, beside: &mut Option<Pointers>, queries: &[Vec<u8>]) {
    let mut hits = Hits::new(n);
    let mut search = |store: &mut dyn Store, r: u32| {
        let each = |query: &Vec<u8>| {
            store.search(black_box(OPEN), r, query, &mut hits);
            hits.count()
        };
        queries.iter().map(each).sum::<usize>()
    };
    for r in RADII {
        let listed = search(library, r);
        let call = format!("{name} n {n} r {r} listed {:.1}", listed as f64 / queries.len() as f64);
        print.rounds(15, [call], &mut both(library, beside), |store| {
            [timed(queries.len(), || assert_eq!(search(store, r), listed, "lists differ"))]
        });
    }
    assert!(library.is_sound());
}

fn all_searches(print: &Print) {
    for (threshold, n) in INDEXES {
        let (pages, queries) = drawn(n);
        let (mut library, mut beside) = (fresh(threshold, n), (!print.own).then(|| trie(Q, threshold, n, n, &pages)));
        fill(&mut library, &pages, &shuffled(3, n));
        let queries = &queries[..if n == PAGES { 200 } else { 1_000 }];
        searches(print, &format!("index search t {threshold}"), n, &mut library, &mut beside, queries);
    }
    let (pages, queries) = drawn(PAGES);
    for n in [1_000, 65_000] {
        let (mut library, mut beside) = (one_leaf(ONE_LEAF, n, &pages), (!print.own).then(|| trie(1, ONE_LEAF, PAGES, n, &pages)));
        let queries = &queries[..if n > 1_000 { 10 } else { 500 }];
        searches(print, &format!("leaf search t {ONE_LEAF}"), n, &mut library, &mut beside, queries);
    }
}

/// Calls of one kind, with others that are not counted; prints how many pages they listed.
fn count(what: &str, threshold: u16, n: usize, words: &[usize]) {
    let (pages, queries) = drawn(PAGES);
    let (order, mut listed) = (shuffled(3, n), 0);
    match what {
        "add" | "drop" => {
            let mut library = one_leaf(threshold, n, &pages);
            for p in (n as u32..PAGES as u32).take(words[0]) {
                fill(&mut library, &pages, &[p]);
                empty_out(&mut library, &[p]);
            }
        }
        "load" | "unload" => {
            let mut library = fresh(threshold, n);
            fill(&mut library, &pages, &order);
            empty_out(&mut library, &shuffled(4, n));
        }
        "search" => {
            let mut library = if threshold == ONE_LEAF { one_leaf(threshold, n, &pages) } else { fresh(threshold, n) };
            if threshold != ONE_LEAF {
                fill(&mut library, &pages, &order);
            }
            let mut hits = Hits::new(PAGES);
            for query in queries.iter().cycle().take(words[1]) {
                library.search(OPEN, words[0] as u32, query, &mut hits);
                listed += hits.count();
            }
        }
        _ => panic!("add, drop, load, unload or search"),
    }
    println!("{listed}");
}

fn main() {
    let given: Vec<String> = std::env::args().skip(1).collect();
    let mode = given.first().map_or("", String::as_str);
    if mode == "count" {
        let words: Vec<usize> = given[2..].iter().map(|word| word.parse().unwrap()).collect();
        return count(&given[1], words[0] as u16, words[1], &words[2..]);
    }
    let print = Print { own: mode == "own" };
    if !print.own {
        println!("Nanoseconds a call; random sketches, b 4, m 32, threshold t; beside the library a pointer trie. leaf: one block, one leaf of n pages,");
        println!("capacity for 65,535; a page is put in and taken out again; any: pages that stand anywhere in it. index: 4 blocks, n pages; load, unload:");
        println!("all of them; add, drop: one in twenty.");
        println!("call                                         this library pointer trie     ratio");
    }
    let (pages, _) = drawn(PAGES);
    LEAVES.into_iter().for_each(|(threshold, n)| leaf(&print, &pages, threshold, n));
    INDEXES.into_iter().for_each(|(threshold, n)| changes(&print, threshold, n));
    all_searches(&print);
}
