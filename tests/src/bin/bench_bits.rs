//! Sketches of 64 bits (b 1, m 64): the library with each q and three thresholds, by radius, beside the strongest plain scan in four builds.
//! Each search is timed by itself, less what the clock costs: the median of its passes, the mean over the queries. Every list is compared
//! with the scan's.
//!
//!     bench_bits            65,535, 8,000 and 1,000 pages
//!     bench_bits 8000       so many pages
use vetchdawn_tests::baselines::{Build, Case, Hits, Kind, Library, Packed, Pages, Way, Words, OPEN};
use vetchdawn_tests::timing::{median, Watch};

const RADII: std::ops::RangeInclusive<u32> = 0..=10;
const BLOCKS: std::ops::RangeInclusive<usize> = 1..=8;
const THRESHOLDS: [u16; 3] = [8, 32, 128];
const PASSES: usize = 9;
/// So many queries, fewer where a pass would take longer than so many microseconds.
const QUERIES: usize = 1_000;
const PASS: f64 = 30_000.0;
const LEAST: usize = 10;
/// So many are put alone, and compared.
const ALONE: usize = 50;

/// The mean over the queries of the median of their passes.
fn mean(passes: &[Vec<f64>]) -> f64 {
    let queries = passes[0].len();
    (0..queries).map(|i| median(passes.iter().map(|pass| pass[i]).collect())).sum::<f64>() / queries as f64
}

struct Bench {
    watch: Watch,
    hits: Hits,
}

impl Bench {
    fn new(pages: usize) -> Self {
        Bench { watch: Watch::default(), hits: Hits::new(pages) }
    }

    fn one(&mut self, way: &mut dyn Way, r: u32, query: &[u8]) -> f64 {
        self.watch.time(|| {
            way.search(OPEN, r, query, &mut self.hits);
        })
    }

    /// How many queries to put.
    fn queries(&mut self, way: &mut dyn Way, r: u32, queries: &[Vec<u8>]) -> usize {
        let time = queries[..LEAST].iter().map(|query| self.one(way, r, query)).sum::<f64>() / LEAST as f64;
        ((PASS / time) as usize).clamp(LEAST, QUERIES)
    }

    /// Microseconds a search, of searches in a row; before each pass 4 MB of other memory are read.
    fn in_a_row(&mut self, way: &mut dyn Way, r: u32, queries: &[Vec<u8>]) -> f64 {
        let queries = &queries[..self.queries(way, r, queries)];
        let mut pass = || {
            self.watch.sweep();
            queries.iter().map(|query| self.one(way, r, query)).collect()
        };
        let passes: Vec<Vec<f64>> = (0..PASSES).map(|_| pass()).collect();
        mean(&passes)
    }

    /// The same where 4 MB of other memory are read before each search.
    fn alone(&mut self, way: &mut dyn Way, r: u32, queries: &[Vec<u8>]) -> f64 {
        let mut after_sweep = |query: &[u8]| {
            self.watch.sweep();
            self.one(way, r, query)
        };
        let queries = &queries[..ALONE];
        let passes: Vec<Vec<f64>> = (0..PASSES).map(|_| queries.iter().map(|query| after_sweep(query)).collect()).collect();
        mean(&passes)
    }

    /// The library lists what the scan lists. Gives how many pages a search lists.
    fn compare(&mut self, library: &mut dyn Way, mut scan: &Packed, r: u32, queries: &[Vec<u8>]) -> f64 {
        let mut list = |way: &mut dyn Way, query: &[u8]| {
            way.search(OPEN, r, query, &mut self.hits);
            (self.hits.pages().to_vec(), self.hits.distances().to_vec())
        };
        let queries = &queries[..ALONE];
        let mut listed = 0;
        for query in queries {
            let wanted = list(&mut scan, query);
            listed += wanted.0.len();
            assert!(list(library, query) == wanted, "lists differ");
        }
        listed as f64 / queries.len() as f64
    }
}

fn case(n: usize, kind: Kind, q: usize, threshold: u16) -> Case {
    Case { n, b: 1, m: 64, r: 0, q, threshold, kind, open: OPEN }
}

/// The library with one q and threshold, and its times by radius.
struct Setting {
    q: usize,
    threshold: u16,
    library: Library,
    times: Vec<f64>,
}

fn settings(n: usize, kind: Kind, pages: &Pages) -> Vec<Setting> {
    let one = |q: usize, threshold: u16| Setting { q, threshold, library: Library::new(&case(n, kind, q, threshold), pages), times: Vec::new() };
    THRESHOLDS.iter().flat_map(|&threshold| BLOCKS.map(move |q| one(q, threshold))).collect()
}

/// By threshold and radius the times of each q.
fn print_all(settings: &[Setting]) {
    for of_one in settings.chunks(BLOCKS.count()) {
        print!("threshold {:3}:  r", of_one[0].threshold);
        of_one.iter().for_each(|s| print!("      q {}", s.q));
        println!();
        for r in RADII {
            print!("               {r:2}");
            of_one.iter().for_each(|s| print!(" {:8.2}", s.times[r as usize]));
            println!();
        }
    }
}

/// The times at one radius, of the best setting and of each build of the scan, where the machine can run it: in a row and alone.
struct Line {
    library: [f64; 2],
    scans: [[Option<f64>; Build::ALL.len()]; 2],
}

fn line(bench: &mut Bench, best: &mut Setting, scan: &Packed, r: u32, queries: &[Vec<u8>]) -> Line {
    let mut each = |time: &dyn Fn(&mut Bench, &mut Words) -> f64| Build::ALL.map(|build| Words::new(scan, build).map(|mut words| time(bench, &mut words)));
    let scans = [each(&|bench, words| bench.in_a_row(words, r, queries)), each(&|bench, words| bench.alone(words, r, queries))];
    Line { library: [best.times[r as usize], bench.alone(&mut best.library, r, queries)], scans }
}

fn print_line(r: u32, listed: f64, best: &Setting, line: &Line) {
    let shown = |time: Option<f64>| time.map_or(format!(" {:>8}", "-"), |time| format!(" {time:8.2}"));
    let scans = line.scans.map(|times| times.map(shown).concat());
    let [in_a_row, alone] = line.library;
    println!("          {r:2} {listed:6.1} {:2} {:3}   {in_a_row:8.2} {alone:8.2} |          {} |  {}", best.q, best.threshold, scans[0], scans[1]);
}

/// From which radius on a build of the scan takes less time, if from any.
fn better_from(lines: &[Line], way: usize, build: usize) -> Option<usize> {
    let better = |line: &Line| line.scans[way][build].is_some_and(|time| time < line.library[way]);
    let from = lines.len() - lines.iter().rev().take_while(|line| better(line)).count();
    (from < lines.len()).then_some(from)
}

/// By radius the best setting, in a row and alone, and the scans.
fn print_best(bench: &mut Bench, settings: &mut [Setting], scan: &Packed, queries: &[Vec<u8>]) {
    println!("the best:  r listed  q   t   in a row    alone | scan, in a row: any   popcnt     avx2   avx512 | alone: any   popcnt     avx2   avx512");
    let mut lines = Vec::new();
    for r in RADII {
        let best = settings.iter_mut().min_by(|x, y| x.times[r as usize].total_cmp(&y.times[r as usize])).unwrap();
        let listed = bench.compare(&mut best.library, scan, r, queries);
        lines.push(line(bench, best, scan, r, queries));
        print_line(r, listed, best, &lines[r as usize]);
    }
    let from = |way: usize| (0..Build::ALL.len()).map(|build| better_from(&lines, way, build).map_or(format!(" {:>8}", "-"), |r| format!(" {r:8}"))).collect::<String>();
    println!("the scan is better from this radius on         |          {} |  {}", from(0), from(1));
}

fn run(n: usize, kind: Kind) {
    println!("{n} pages, {}", kind.name());
    let (pages, queries) = case(n, kind, 1, 8).pages();
    let scan = pages.packed(1);
    let mut bench = Bench::new(n);
    let mut settings = settings(n, kind, &pages);
    for setting in &mut settings {
        for r in RADII {
            bench.compare(&mut setting.library, &scan, r, &queries);
            setting.times.push(bench.in_a_row(&mut setting.library, r, &queries));
        }
    }
    print_all(&settings);
    print_best(&mut bench, &mut settings, &scan, &queries);
}

fn main() {
    let given: Vec<usize> = std::env::args().skip(1).map(|n| n.parse().expect("a number of pages")).collect();
    println!("Microseconds a search, b 1, m 64. The library is built for any x86-64. The scan by build: any x86-64; with population counts of words;");
    println!("with vectors of 256 bits; with vectors of 512 bits and their population counts. In a row: up to 1,000 searches. Alone: 4 MB of other");
    println!("memory are read before each search.");
    for n in if given.is_empty() { vec![65_535, 8_000, 1_000] } else { given } {
        run(n, Kind::Random);
        run(n, Kind::Clustered);
    }
}
