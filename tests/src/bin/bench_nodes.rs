//! How many nodes the trees of an index need. Counts, not times. Every count is compared with the bound of docs/OPERATING.md, "Nodes".
use std::collections::VecDeque;
use vetchdawn_tests::baselines::block;
use vetchdawn_tests::calls;
use vetchdawn_tests::plain::packed_length;
use vetchdawn_tests::random::Random;
use vetchdawn_tests::stores::{deep_settings, small_settings, Sketches};
use vetchdawn_tests::tables::{Settings, Tables, FREE};

const PAGES: usize = 65_535;
const NODES: u32 = 262_144;
const SHOWN: [usize; 7] = [1_000, 2_000, 5_000, 10_000, 20_000, 50_000, PAGES];
/// From so many pages on the greatest ratio is looked for.
const FROM: usize = 500;
const THRESHOLDS: [u16; 5] = [0, 2, 8, 32, 128];

/// The bytes of each block, and how many values a block has, at most `PAGES`.
fn blocks(s: &Settings) -> Vec<(usize, usize)> {
    let of = |j: usize| {
        let symbols = block(s.m as usize, s.q as usize, j).1 as u32;
        (packed_length(s.b, symbols), (1usize << (s.b * symbols).min(16)).min(PAGES))
    };
    (0..s.q as usize).map(of).collect()
}

/// No more nodes than this stand in the trees when `pages` are live, `adds` pages having been added since the opening. In each tree: its root;
/// a leaf for each page or value; on each level below the root as many inner nodes as pages, as 256 on level 1, and as leaves can have been
/// split there, a page being in one split of the level at most; and in all no more inner nodes than adds, which split a leaf each at most.
fn bound(s: &Settings, pages: usize, adds: usize) -> usize {
    let inner = |k: usize| pages.min(adds / (usize::from(s.thresholds[k]) + 1)).min(if k < 2 { 256 } else { PAGES });
    let tree = |(bytes, values): (usize, usize)| 1 + pages.min(values) + (1..bytes).map(inner).sum::<usize>().min(adds);
    blocks(s).into_iter().map(tree).sum()
}

/// The same, however many pages were added and dropped.
fn lasting_bound(s: &Settings, pages: usize) -> usize {
    bound(s, pages, usize::MAX)
}

/// A node for each byte of each page, and the roots.
fn proved_bound(s: &Settings, pages: usize) -> usize {
    blocks(s).into_iter().map(|(bytes, _)| 1 + pages * bytes).sum()
}

fn settings(b: u32, m: u32, q: u32, threshold: u16) -> Settings {
    Settings { b, m, q, pages: PAGES as u32, nodes: NODES, thresholds: vec![threshold; 64] }
}

/// An index that counts its adds.
struct Index {
    s: Settings,
    tables: Tables,
    /// nothing was dropped
    fresh: bool,
    pages: usize,
    adds: usize,
}

impl Index {
    fn new(s: Settings) -> Self {
        let mut tables = Tables::filled_with(0, &s);
        assert_eq!(calls::open(&mut tables, &s), 0);
        Index { s, tables, fresh: true, pages: 0, adds: 0 }
    }

    /// False where the nodes do not reach.
    fn add(&mut self, page: usize, sketch: &[u8]) -> bool {
        match calls::add(&mut self.tables.lend(), page as u32, 0, sketch) {
            0 => {}
            12 => return false,
            number => panic!("{number}"),
        }
        self.pages += 1;
        self.adds += 1;
        true
    }

    fn drop(&mut self, page: usize) {
        assert_eq!(calls::drop(&mut self.tables.lend(), page as u32), 0);
        self.pages -= 1;
        self.fresh = false;
    }

    /// Nodes in use. Before the first drop the free nodes are those from the first free one on.
    fn used(&self) -> usize {
        let first = self.tables.settings[FREE] as usize;
        let used = match (self.fresh, first) {
            (true, 0) => NODES as usize,
            (true, link) => link - 1,
            _ => NODES as usize - self.free(),
        };
        assert!(used <= bound(&self.s, self.pages, self.adds) && used <= proved_bound(&self.s, self.pages), "past a bound");
        used
    }

    fn free(&self) -> usize {
        let (mut free, mut link) = (0, self.tables.settings[FREE]);
        while link != 0 {
            free += 1;
            link = self.tables.nodes[link as usize - 1];
        }
        free
    }
}

/// Nodes a page after some numbers of adds, none where the nodes did not reach; the greatest ratio, and after how many adds it was.
struct Run {
    ratios: Vec<Option<f64>>,
    most: f64,
    at: usize,
    /// the greatest ratio a block, without 257 nodes for each
    each: f64,
}

fn run(s: Settings, sketches: &[Vec<u8>]) -> Run {
    let mut index = Index::new(s);
    let mut run = Run { ratios: Vec::new(), most: 0.0, at: 0, each: 0.0 };
    for (p, x) in sketches.iter().enumerate() {
        if !index.add(p, x) {
            break;
        }
        let n = p + 1;
        let (used, q) = (index.used() as f64, f64::from(index.s.q));
        let ratio = used / n as f64;
        if n >= FROM && ratio > run.most {
            (run.most, run.at) = (ratio, n);
        }
        run.each = run.each.max((used - 257.0 * q) / (q * n as f64));
        if SHOWN.contains(&n) {
            run.ratios.push(Some(ratio));
        }
    }
    assert_eq!(index.used(), NODES as usize - index.free());
    run.ratios.resize(SHOWN.len(), None);
    run
}

fn random_sketches(b: u32, m: u32) -> Vec<Vec<u8>> {
    let mut random = Random::new(9);
    (0..PAGES).map(|_| random.bytes(m as usize, 1 << b)).collect()
}

/// Clusters of so many pages each, one after the other: a centre with up to six symbols changed.
fn clusters(b: u32, m: u32, each: usize) -> impl FnMut() -> Vec<u8> {
    let mut random = Random::new(9);
    let (mut centre, mut left) = (Sketches::new(&mut random, b, m, 1), each);
    move || {
        if left == 0 {
            (centre, left) = (Sketches::new(&mut random, b, m, 1), each);
        }
        left -= 1;
        centre.near(&mut random, 6)
    }
}

fn clustered_sketches(b: u32, m: u32, each: usize) -> Vec<Vec<u8>> {
    let mut next = clusters(b, m, each);
    (0..PAGES).map(|_| next()).collect()
}

fn print_run(s: &Settings, name: &str, run: &Run) {
    let adds_alone = bound(s, PAGES, PAGES) as f64 / PAGES as f64;
    print!("{} {:2} {} {:4}  {name:11}", s.b, s.m, s.q, s.thresholds[0]);
    run.ratios.iter().for_each(|ratio| print!(" {}", ratio.map_or(format!("{:>6}", "-"), |ratio| format!("{ratio:6.3}"))));
    println!("   {:6.3} {:6}   {adds_alone:6.3}", run.most, run.at);
}

/// The greatest ratio a block by threshold, of random sketches and of clusters.
#[derive(Default)]
struct Most([[f64; 2]; THRESHOLDS.len()]);

impl Most {
    fn put(&mut self, threshold: u16, clustered: bool, run: &Run) {
        let i = THRESHOLDS.iter().position(|&t| t == threshold).unwrap();
        let most = &mut self.0[i][usize::from(clustered)];
        *most = most.max(run.each);
    }

    fn print(&self) {
        println!("Of all runs above, after any number of adds: the most nodes a block and page, without 257 nodes a block.");
        println!("   t  random  clustered");
        for (t, [random, clustered]) in THRESHOLDS.iter().zip(self.0) {
            println!("{t:4}  {random:6.3}     {clustered:6.3}");
        }
    }
}

fn by_pages(most: &mut Most) {
    println!("Nodes in use a page, adds alone, 262,144 nodes; '-' where they did not reach. Clusters come one after the other.");
    println!("most: the greatest ratio after any number of adds from 500 on, and that number. bound: for 65,535 adds.");
    println!("b  m q    t  sketches      1000   2000   5000  10000  20000  50000  65535     most     at    bound");
    for (b, m) in [(4, 32), (1, 64), (2, 64), (8, 32)] {
        let kinds = [("random", random_sketches(b, m)), ("by 100", clustered_sketches(b, m, 100))];
        for (q, (name, sketches)) in [1, 2, 4, 8].into_iter().flat_map(|q| kinds.iter().map(move |kind| (q, kind))) {
            for threshold in THRESHOLDS {
                let s = settings(b, m, q, threshold);
                let run = run(s.clone(), sketches);
                print_run(&s, name, &run);
                most.put(threshold, *name != "random", &run);
            }
        }
    }
}

fn by_clusters(most: &mut Most) {
    println!("Clusters of other sizes:");
    for (b, m) in [(4, 32), (1, 64), (8, 32)] {
        for each in [10, 30, 300, 1_000] {
            let sketches = clustered_sketches(b, m, each);
            for (q, threshold) in [(1, 8), (1, 32), (4, 8), (4, 32)] {
                let s = settings(b, m, q, threshold);
                let run = run(s.clone(), &sketches);
                print_run(&s, &format!("by {each}"), &run);
                most.put(threshold, true, &run);
            }
        }
    }
}

/// Nodes a page after each page was replaced some times by another of its kind, the oldest first.
fn replaced(s: &Settings, n: usize, times: &[usize], mut sketch: impl FnMut() -> Vec<u8>) -> Vec<f64> {
    let mut index = Index::new(s.clone());
    let mut live: VecDeque<usize> = (0..n).collect();
    (0..n).for_each(|p| assert!(index.add(p, &sketch())));
    let mut ratios = vec![index.used() as f64 / n as f64];
    for pair in [&[0], times].concat().windows(2) {
        for _ in 0..n * (pair[1] - pair[0]) {
            let page = live.pop_front().unwrap();
            index.drop(page);
            assert!(index.add(page, &sketch()));
            live.push_back(page);
        }
        ratios.push(index.used() as f64 / n as f64);
    }
    ratios
}

fn print_replaced(s: &Settings, n: usize, name: &str, sketch: impl FnMut() -> Vec<u8>) {
    print!("{} {:2} {} {:4}  {n:5}  {name:9}", s.b, s.m, s.q, s.thresholds[0]);
    replaced(s, n, &[1, 10, 50], sketch).iter().for_each(|ratio| print!(" {ratio:6.3}"));
    println!("   {:6.3}", lasting_bound(s, n) as f64 / n as f64);
}

fn by_replacing() {
    println!("Nodes a page after each page was replaced so often, the oldest first. bound: however often.");
    println!("b  m q    t  pages  sketches       0      1     10     50    bound");
    for (b, m, q) in [(4, 32, 4), (1, 64, 4)] {
        for (n, threshold) in [(1_000, 8), (1_000, 32), (5_000, 8), (5_000, 32), (5_000, 128), (20_000, 32), (20_000, 128)] {
            let mut random = Random::new(7);
            print_replaced(&settings(b, m, q, threshold), n, "random", || random.bytes(m as usize, 1 << b));
        }
    }
    for (b, m, q) in [(4, 32, 4), (1, 64, 4), (8, 32, 1)] {
        for threshold in [8, 32] {
            print_replaced(&settings(b, m, q, threshold), 5_000, "by 100", clusters(b, m, 100));
        }
    }
}

/// A sketch whose packed bytes are those of a number, the same in each block, but for the last byte of a block.
fn spread(s: &Settings, number: usize, last: usize) -> Vec<u8> {
    let mut x = Vec::new();
    let z = (8 / s.b) as usize;
    for j in 0..s.q as usize {
        let symbols = block(s.m as usize, s.q as usize, j).1;
        let bytes = symbols.div_ceil(z);
        for i in 0..symbols {
            // the number from the first byte on, so that groups part as high as they can; the last byte is not 0
            let byte = if i / z == bytes - 1 { last + 1 } else { (number + 256) >> (8 * (i / z)).min(24) };
            x.push(((byte & 255) >> (i % z * s.b as usize) & ((1 << s.b) - 1)) as u8);
        }
    }
    x
}

/// Groups of pages that differ in the last byte alone, each just large enough to be split on every level.
fn worst_adds(s: &Settings, n: usize) -> usize {
    let group = usize::from(s.thresholds[0]) + blocks(s)[0].0 - 1;
    let mut index = Index::new(s.clone());
    (0..n).for_each(|p| assert!(index.add(p, &spread(s, 1 + p / group, p % group))));
    index.used()
}

/// The same, and then all pages of a group but one are dropped.
fn worst_drops(s: &Settings, n: usize) -> usize {
    let group = usize::from(s.thresholds[0]) + blocks(s)[0].0 - 1;
    let mut index = Index::new(s.clone());
    for p in 0..n {
        (0..group).for_each(|i| assert!(index.add(p + i, &spread(s, 1 + p, 0))));
        (1..group).for_each(|i| index.drop(p + i));
    }
    index.used()
}

fn worst() {
    println!("The worst that was found, nodes: groups of pages that are split on every level; and the same with all pages of a group but one dropped.");
    println!("bound: for these adds alone, and for any adds and drops; proved: a node for each byte of each page, and the roots.");
    println!("b  m q    t  pages    adds alone    bound   with drops    bound   proved");
    for (b, m, q, threshold, n) in [(4, 32, 4, 8, 5_000), (4, 32, 4, 32, 5_000), (4, 32, 1, 8, 5_000), (1, 64, 2, 8, 20_000), (1, 64, 1, 8, 20_000), (8, 64, 1, 2, 2_000)] {
        let s = settings(b, m, q, threshold);
        let (adds, drops) = (worst_adds(&s, n), worst_drops(&s, n));
        println!("{b} {m:2} {q} {threshold:4} {n:6}  {adds:12} {:8} {drops:12} {:8} {:8}", bound(&s, n, n), lasting_bound(&s, n), proved_bound(&s, n));
    }
}

/// Random adds and drops of alike sketches on small settings, thresholds by level: `used` stops where a bound is passed. Gives how often
/// the bound was reached.
fn history(random: &mut Random) -> (usize, usize) {
    let drawn = if random.below(2) == 0 { small_settings(random) } else { deep_settings(random) };
    let mut index = Index::new(Settings { pages: PAGES as u32, nodes: NODES, ..drawn });
    let sketches = Sketches::new(random, index.s.b, index.s.m, 4);
    let mut live = [false; 40];
    let (mut counts, mut reached) = (0, 0);
    for _ in 0..300 {
        let page = random.below(40) as usize;
        let sketch = sketches.near(random, 4);
        match live[page] {
            true => index.drop(page),
            false if sketch.iter().all(|&c| c == 0) => continue,
            false => assert!(index.add(page, &sketch)),
        }
        live[page] = !live[page];
        counts += 1;
        reached += usize::from(index.pages > 0 && index.used() == bound(&index.s, index.pages, index.adds));
    }
    (counts, reached)
}

fn histories() {
    let mut random = Random::new(11);
    let all: Vec<(usize, usize)> = (0..100).map(|_| history(&mut random)).collect();
    let sum = |of: fn(&(usize, usize)) -> usize| all.iter().map(of).sum::<usize>();
    println!("Random adds and drops on 100 small settings: {} counts, none past a bound, {} at it.", sum(|x| x.0), sum(|x| x.1));
}

fn main() {
    let mut most = Most::default();
    by_pages(&mut most);
    by_clusters(&mut most);
    most.print();
    by_replacing();
    worst();
    histories();
}
