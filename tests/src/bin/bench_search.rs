//! Searches of the library against plain programs that answer the same: each way in turn answers a row of queries, pass after pass, and
//! its lists of pages and distances are compared with the library's. Each search is timed by itself: the median of its passes, the mean over
//! the queries.
//!
//!     bench_search          all cases, 1,000 queries in a row
//!     bench_search quick    the settings shown, 1,000 queries in a row
//!     bench_search rows     the settings shown, 1, 10, 100 and 1,000 queries in a row
//!     bench_search wide     radius 64 with all classes open: every page is listed
//!     bench_search own      the library's times alone: b m r q sketches row listed microseconds
//!     bench_search count b m r q random|clustered|few searches      so many searches, for an instruction count
//!
//! Sketches are random or clustered; few are clustered ones with queries that list 8 to 12 pages. Built with the feature `one_list`, for
//! an archive of before F-3, the pages listed are compared whatever their order.
use vetchdawn_tests::baselines::{Case, Hashing, Hits, Kind, Library, Packed, Pages, Planes, Pointers, Way, OPEN};
use vetchdawn_tests::calls::ONE_LIST;
use vetchdawn_tests::timing::{median, Watch};

/// b, m, r, q.
type Setting = (u32, usize, u32, usize);
const SHOWN: [Setting; 4] = [(4, 32, 3, 4), (4, 32, 2, 2), (1, 64, 5, 6), (1, 64, 7, 8)];
const OTHERS: [Setting; 10] = [
    (4, 32, 1, 2), (4, 32, 1, 1), (4, 32, 2, 3), (4, 32, 3, 3), (2, 64, 2, 2),
    (2, 64, 3, 4), (8, 32, 2, 2), (8, 32, 3, 4), (1, 64, 2, 2), (1, 64, 3, 4),
];
const PAGES: usize = 65_535;
/// Of a search that lists all pages: b, m, q.
const WIDE: [(u32, usize, usize); 2] = [(4, 32, 4), (1, 64, 8)];
const WIDE_QUERIES: usize = 20;
const ROWS: [usize; 4] = [1, 10, 100, 1_000];
/// So many queries are answered where a row has fewer, and by a scan where it has more.
const FEW: usize = 200;
const PASSES: usize = 5;
/// Past so many keys a block is not hashed.
const KEYS: usize = 100_000;
const WAYS: usize = 5;

fn case(n: usize, (b, m, r, q): Setting, kind: Kind) -> Case {
    Case { n, b, m, r, q, threshold: 32, kind, open: OPEN }
}

/// The library, the indexes, the scans. None stands for a way that is not tried.
type Ways<'a> = [Option<Box<dyn Way + 'a>>; WAYS];

fn ways<'a>(c: &Case, pages: &Pages, packed: &'a Packed) -> Ways<'a> {
    let hashing = (c.keys() <= KEYS).then(|| Box::new(Hashing::new(packed, c.q)) as Box<dyn Way>);
    let planes = Planes::new(packed);
    [Some(Box::new(Library::new(c, pages))), Some(Box::new(trie(c, pages))), hashing, Some(Box::new(packed)), Some(Box::new(planes))]
}

fn trie(c: &Case, pages: &Pages) -> Pointers {
    let mut trie = Pointers::new(c.b, c.m, c.q, c.n, c.threshold);
    for (p, &class) in pages.classes.iter().enumerate() {
        assert!(trie.add(p as u32, class, pages.sketch(p)));
    }
    trie
}

/// The lists of pages and distances; of a library without distances the pages alone, rising.
fn listed(hits: &Hits) -> (Vec<u16>, Vec<u16>) {
    let mut pages = hits.pages().to_vec();
    if ONE_LIST {
        pages.sort_unstable();
        return (pages, Vec::new());
    }
    (pages, hits.distances().to_vec())
}

/// What a turn needs beside its way: a watch, and room for the lists.
struct Bench {
    watch: Watch,
    hits: Hits,
}

impl Bench {
    fn new() -> Self {
        Bench { watch: Watch::default(), hits: Hits::new(PAGES) }
    }

    /// A turn: a row of queries is answered, each one's time put down, and `seen` is shown what it lists. Gives how many pages were tested.
    fn turn(&mut self, c: &Case, way: &mut dyn Way, queries: &[Vec<u8>], times: &mut [Vec<f64>], mut seen: impl FnMut(&Hits)) -> usize {
        self.watch.sweep();
        let mut tested = 0;
        for (query, times) in queries.iter().zip(times) {
            times.push(self.watch.time(|| tested += way.search(c.open, c.r, query, &mut self.hits)));
            seen(&self.hits);
        }
        tested
    }
}

/// The mean over the queries of the median of their passes.
fn mean(times: Vec<Vec<f64>>) -> f64 {
    let medians: Vec<f64> = times.into_iter().filter(|t| !t.is_empty()).map(median).collect();
    medians.iter().sum::<f64>() / medians.len() as f64
}

/// For each way microseconds a search and pages tested, and the pages listed.
struct Line {
    times: [f64; WAYS],
    tested: [f64; WAYS],
    listed: f64,
}

/// Each way answers `row` queries, then the next way does.
fn line(c: &Case, ways: &mut Ways, queries: &[Vec<u8>], row: usize) -> Line {
    let mut bench = Bench::new();
    let mut times: [_; WAYS] = std::array::from_fn(|_| vec![Vec::new(); queries.len()]);
    let (mut tested, mut pages) = ([0; WAYS], 0);
    for first in (0..PASSES).flat_map(|_| (0..queries.len()).step_by(row)) {
        let queries = &queries[first..first + row];
        let mut wanted = Vec::new();
        for (i, way) in ways.iter_mut().enumerate() {
            let Some(way) = way else { continue };
            let queries = if i < 3 { queries } else { &queries[..row.min(FEW)] };
            let mut lists = Vec::with_capacity(queries.len());
            tested[i] += bench.turn(c, &mut **way, queries, &mut times[i][first..], |hits| lists.push(listed(hits)));
            if i == 0 {
                pages += lists.iter().map(|list| list.0.len()).sum::<usize>();
                wanted = lists;
            } else {
                assert!(lists == wanted[..queries.len()], "lists differ");
            }
        }
    }
    let each = |n: usize| n as f64 / (PASSES * queries.len()) as f64;
    Line { times: times.map(mean), tested: tested.map(each), listed: each(pages) }
}

const HEAD: &str = "    n b  m r q sketches   row    met   hash listed  library     trie  hashing     rows   planes   /trie  /hash  /scan";

fn print(c: &Case, row: usize, line: &Line) {
    let sketches = c.kind.name();
    let shown = |x: f64, width: usize, digits: usize| if x.is_nan() { format!(" {:>width$}", "-") } else { format!(" {x:width$.digits$}") };
    let [library, trie, hashing, rows, planes] = line.times;
    let hashed = if hashing.is_nan() { hashing } else { line.tested[2] };
    print!("{:5} {} {:2} {} {} {sketches:9} {row:4}", c.n, c.b, c.m, c.r, c.q);
    [line.tested[1], hashed, line.listed].iter().for_each(|&pages| print!("{}", shown(pages, 6, 1)));
    line.times.iter().for_each(|&time| print!("{}", shown(time, 8, 2)));
    print!(" ");
    [trie, hashing, rows.min(planes)].iter().for_each(|other| print!("{}", shown(library / other, 6, 2)));
    println!();
}

fn head() {
    let built = match (cfg!(target_feature = "avx512vpopcntdq"), cfg!(target_feature = "popcnt")) {
        (true, _) => "with population counts of vectors",
        (_, true) => "with population counts",
        _ => "for any x86-64",
    };
    println!("Microseconds a search, threshold 32. The library is built for any x86-64, the plain programs {built}.");
    println!("met, hash: pages tested by the trie and by hashing. The last columns: the library / the trie, / hashing, / the best scan.");
    println!("{HEAD}");
}

fn compare(c: &Case, rows: &[usize]) {
    let (pages, queries) = c.pages();
    let packed = pages.packed(c.b);
    let mut ways = ways(c, &pages, &packed);
    for &row in rows {
        print(c, row, &line(c, &mut ways, &queries[..row.max(FEW)], row));
    }
}

/// The library, the trie and the scan of rows, where every page is listed.
fn wide(c: &Case) {
    let (pages, queries) = c.pages();
    let packed = pages.packed(c.b);
    let mut ways: Ways = [Some(Box::new(Library::new(c, &pages))), Some(Box::new(trie(c, &pages))), None, Some(Box::new(&packed)), None];
    let line = line(c, &mut ways, &queries[..WIDE_QUERIES], 1);
    let [library, trie, _, rows, _] = line.times;
    print!("{} {:2} {} {:9} {:6.0}", c.b, c.m, c.q, c.kind.name(), line.listed);
    println!(" {library:8.0} {trie:8.0} {rows:8.0}  {:6.2} {:6.2}", library / trie, library / rows);
}

/// The library's times alone, in the same rows.
fn own(c: &Case) {
    let (pages, queries) = c.pages();
    let mut library = Library::new(c, &pages);
    let mut bench = Bench::new();
    for row in ROWS {
        let queries = &queries[..row.max(FEW)];
        let mut times = vec![Vec::new(); queries.len()];
        let mut listed = 0;
        for first in (0..PASSES).flat_map(|_| (0..queries.len()).step_by(row)) {
            bench.turn(c, &mut library, &queries[first..first + row], &mut times[first..], |hits| listed += hits.count());
        }
        let listed = listed as f64 / (PASSES * queries.len()) as f64;
        println!("{} {} {} {} {} {row} {listed:.1} {:.3}", c.b, c.m, c.r, c.q, c.kind.name(), mean(times));
    }
}

/// Some searches and nothing else; prints how many pages they listed.
fn count(given: &[String]) {
    let number = |i: usize| given[i].parse::<usize>().unwrap();
    let c = case(PAGES, (number(0) as u32, number(1), number(2) as u32, number(3)), Kind::named(&given[4]));
    let (pages, queries) = c.pages();
    let mut library = Library::new(&c, &pages);
    let (mut hits, mut listed) = (Hits::new(PAGES), 0);
    for query in queries.iter().cycle().take(number(5)) {
        library.search(c.open, c.r, query, &mut hits);
        listed += hits.count();
    }
    println!("{listed}");
}

/// Each setting with some kinds of sketches.
fn all(n: usize, settings: &[Setting], kinds: &[Kind], each: impl Fn(&Case)) {
    for &setting in settings {
        for &kind in kinds {
            each(&case(n, setting, kind));
        }
    }
}

/// Random and clustered sketches of each setting.
fn both(n: usize, settings: &[Setting], each: impl Fn(&Case)) {
    all(n, settings, &[Kind::Random, Kind::Clustered], each);
}

fn main() {
    let given: Vec<String> = std::env::args().skip(1).collect();
    let mode = given.first().map_or("", String::as_str);
    match mode {
        "own" => {
            both(PAGES, &SHOWN, own);
            return all(PAGES, &SHOWN[..2], &[Kind::Few], own);
        }
        "count" => return count(&given[1..]),
        "wide" => {
            println!("Microseconds a search, radius 64, 65,535 pages, all classes open, threshold 32; the plain programs with sort_unstable.");
            println!("b  m q sketches  listed  library     trie     rows   /trie  /rows");
            return both(PAGES, &WIDE.map(|(b, m, q)| (b, m, 64, q)), |c| wide(&Case { open: u64::MAX, ..*c }));
        }
        _ => head(),
    }
    if mode == "rows" {
        return both(PAGES, &SHOWN, |c| compare(c, &ROWS));
    }
    both(PAGES, &SHOWN, |c| compare(c, &[1_000]));
    if mode != "quick" {
        both(PAGES, &OTHERS, |c| compare(c, &[1_000]));
        both(1_000, &SHOWN, |c| compare(c, &[1_000]));
        both(8_000, &SHOWN, |c| compare(c, &[1_000]));
    }
}
