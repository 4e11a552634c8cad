//! What rights cost: searches by a reader in one group and in all; joins, leaves, grants and revokes; checks. Beside the library plain programs
//! that give the same, the two in turn; medians of the rounds, as ratios.
//!
//!     bench_rights          all, beside plain Rust
//!     bench_rights own      the library's times alone: what was called, then nanoseconds
//!     bench_rights count groups searches      so many searches by a reader in so many groups, for an instruction count
use std::hint::black_box;
use std::time::Instant;
use vetchdawn_tests::baselines::cases::empty;
use vetchdawn_tests::baselines::{register, Case, Hits, Kind, Library, Pages, Pointers, Way, OPEN};
use vetchdawn_tests::calls;
use vetchdawn_tests::tables::{Settings, Tables, MARK};
use vetchdawn_tests::timing::median;

const SEARCH_ROUNDS: usize = 41;
const CALL_ROUNDS: usize = 501;
const CHECK_ROUNDS: usize = 201;
/// Pages, nodes and radius.
const SEARCHES: [(usize, u32, u32); 4] = [(100, 1_000, 0), (1_000, 4_000, 0), (1_000, 4_000, 4), (65_535, 262_144, 4)];
/// The group that is joined and left, and granted classes.
const GROUP: u32 = 17;
const JOIN: u64 = 0;
const LEAVE: u64 = 1;
const GRANT: u64 = 2;
const REVOKE: u64 = 3;

/// Nanoseconds for each of `count` calls.
fn timed(count: usize, work: impl FnOnce()) -> f64 {
    let start = Instant::now();
    work();
    start.elapsed().as_nanos() as f64 / count as f64
}

/// One line: the library's time, and the plain program's.
struct Print {
    own: bool,
}

impl Print {
    fn line(&self, call: &str, library: f64, plain: f64) {
        if self.own {
            println!("{call} {library:.1}");
        } else {
            println!("{call:42} {library:12.1} {plain:12.1}   {:5.2}", library / plain);
        }
    }

    /// What the plain program tells is less, and no ratio is printed.
    fn beside(&self, call: &str, library: f64, less: f64) {
        if self.own {
            println!("{call} {library:.1}");
        } else {
            println!("{call:42} {library:12.1} {less:12.1}");
        }
    }
}

fn trie(c: &Case, pages: &Pages) -> Pointers {
    let mut trie = Pointers::new(c.b, c.m, c.q, c.n, c.threshold);
    pages.classes.iter().enumerate().for_each(|(p, &class)| assert!(trie.add(p as u32, class, pages.sketch(p))));
    trie
}

fn case(n: usize, r: u32) -> Case {
    Case { n, b: 4, m: 32, r, q: 4, threshold: 32, kind: Kind::Clustered, open: OPEN }
}

/// The same classes by one group and by 32, and the trie, which is given the set of them.
fn searches(print: &Print, n: usize, nodes: u32, r: u32) {
    let c = case(n, r);
    let (pages, queries) = c.pages();
    let mut trie = trie(&c, &pages);
    let mut libraries = [1, 32].map(|groups| Library::in_groups(&c, &pages, nodes, groups));
    let mut hits = Hits::new(n);
    let (mut times, mut listed) = ([const { Vec::new() }; 3], [0; 3]);
    for _ in 0..SEARCH_ROUNDS {
        let [one, all] = &mut libraries;
        for (i, way) in [one as &mut dyn Way, all, &mut trie].into_iter().enumerate() {
            let mut search = |query: &Vec<u8>| {
                way.search(black_box(OPEN), r, query, &mut hits);
                listed[i] += hits.count();
            };
            times[i].push(timed(queries.len(), || queries.iter().for_each(&mut search)));
        }
    }
    assert!(listed[0] == listed[1] && listed[0] == listed[2], "lists differ: {listed:?}");
    let listed = listed[0] as f64 / (SEARCH_ROUNDS * queries.len()) as f64;
    let [one, all, trie] = times.map(median);
    print.line(&format!("search n {n} r {r} listed {listed:.1} groups 1"), one, trie);
    print.line(&format!("search n {n} r {r} listed {listed:.1} groups 32"), all, trie);
}

/// The same register in the library's settings, as it opens them, and in the words of the plain program.
struct Register {
    library: Tables,
    plain: Tables,
}

impl Register {
    fn new() -> Self {
        let s = Settings { b: 4, m: 32, q: 4, pages: 10, nodes: 40, thresholds: vec![32; 64] };
        let (mut library, mut plain) = (empty(&s), Tables::filled_with(0, &s));
        assert_eq!((calls::open(&mut library, &s), plain.open(&s)), (0, 0));
        Register { library, plain }
    }

    fn call(&mut self, call: u64, x: u32, y: u32) {
        assert_eq!((calls::lent_right(&mut self.library.lend(), call, x, y), self.plain.right(call, x, y)), (0, 0));
    }

    /// These readers are in so many groups, `GROUP` not among them.
    fn join(&mut self, readers: std::ops::Range<u32>, groups: u32) {
        for (reader, i) in readers.flat_map(|reader| (0..groups).map(move |i| (reader, i))) {
            self.call(JOIN, reader, (GROUP + 1 + i) % 32);
        }
    }

    /// Nanoseconds of a call and of the one that takes it back: the library's, then the plain program's. Each round leaves the register as it
    /// was.
    fn rounds(&mut self, pairs: &[(u32, u32)], there: u64, back: u64) -> [[f64; 2]; 2] {
        let mut times = [const { [const { Vec::new() }; 2] }; 2];
        let (library, plain) = (&mut self.library, &mut self.plain.settings);
        let mut lent = library.lend();
        for _ in 0..CALL_ROUNDS {
            for (i, call) in [there, back].into_iter().enumerate() {
                let pairs = black_box(pairs);
                times[0][i].push(timed(pairs.len(), || pairs.iter().for_each(|&(x, y)| assert_eq!(calls::lent_right(&mut lent, call, x, y), 0))));
            }
            for (i, call) in [there, back].into_iter().enumerate() {
                let pairs = black_box(pairs);
                times[1][i].push(timed(pairs.len(), || pairs.iter().for_each(|&(x, y)| assert_eq!(plain_right(plain, call, x, y), 0))));
            }
        }
        times.map(|side| side.map(median))
    }

    /// Both hold the same, where the library's layout is the plain program's.
    fn is_same(&self) -> bool {
        self.library.settings[0] != MARK || self.library.settings == self.plain.settings
    }
}

/// The plain program for `calls::lent_right`.
fn plain_right(settings: &mut [u32], call: u64, x: u32, y: u32) -> u32 {
    match call {
        JOIN => register::member(settings, x, y, true),
        LEAVE => register::member(settings, x, y, false),
        GRANT => register::grant(settings, x, y, true),
        _ => register::grant(settings, x, y, false),
    }
}

/// Every reader joins a group and leaves it: his first, or his last of 32. Each group has two classes.
fn memberships(print: &Print) {
    for groups in [1, 32] {
        let mut both = Register::new();
        (0..32).for_each(|group| both.call(GRANT, group, 2 * group));
        (0..32).for_each(|group| both.call(GRANT, group, (2 * group + 33) % 64));
        both.join(0..256, groups - 1);
        let pairs: Vec<(u32, u32)> = (0..256).map(|i| (i * 101 % 256, GROUP)).collect();
        let [library, plain] = both.rounds(&pairs, JOIN, LEAVE);
        assert!(both.is_same());
        print.line(&format!("join groups {groups}"), library[0], plain[0]);
        print.line(&format!("leave groups {groups}"), library[1], plain[1]);
    }
}

/// A group is granted every class and loses it; its members have it by no other group, so that all their groups are gone through.
fn grants(print: &Print) {
    for (members, groups) in [(0, 0), (1, 1), (1, 32), (256, 1), (256, 32)] {
        let mut both = Register::new();
        both.join(0..members, groups.max(1) - 1);
        (0..members).for_each(|reader| both.call(JOIN, reader, GROUP));
        let pairs: Vec<(u32, u32)> = (0..64).map(|i| (GROUP, i * 37 % 64)).collect();
        let [library, plain] = both.rounds(&pairs, GRANT, REVOKE);
        assert!(both.is_same());
        print.line(&format!("grant members {members} groups {groups}"), library[0], plain[0]);
        print.line(&format!("revoke members {members} groups {groups}"), library[1], plain[1]);
    }
}

/// A store of 1,000 pages and 4,000 nodes, all readers in so many groups; beside it the plain test of the entries alone.
fn checks(print: &Print) {
    let (pages, _) = case(1_000, 0).pages();
    for groups in [0, 1, 32] {
        let s = Settings { b: 4, m: 32, q: 4, pages: 1_000, nodes: 4_000, thresholds: vec![32; 64] };
        let mut both = Register { library: empty(&s), ..Register::new() };
        assert_eq!(calls::open(&mut both.library, &s), 0);
        both.join(0..256, groups);
        (0..64).for_each(|class| both.call(GRANT, class % 32, class));
        for (p, &class) in pages.classes.iter().enumerate() {
            assert_eq!(calls::add(&mut both.library.lend(), p as u32, class.into(), pages.sketch(p)), 0);
        }
        let (mut check, mut entries) = (Vec::new(), Vec::new());
        for _ in 0..CHECK_ROUNDS {
            check.push(timed(1, || assert_eq!(calls::check(&mut both.library.lend()), (0, true))));
            entries.push(timed(1, || assert!(register::is_current(black_box(&both.plain.settings)))));
        }
        print.beside(&format!("check n 1000 groups {groups}"), median(check), median(entries));
    }
}

/// Some searches of the smallest store and nothing else; prints how many pages they listed.
fn count(groups: u32, searches: usize) {
    let (n, nodes, r) = SEARCHES[0];
    let c = case(n, r);
    let (pages, queries) = c.pages();
    let (mut library, mut hits, mut listed) = (Library::in_groups(&c, &pages, nodes, groups), Hits::new(n), 0);
    for query in queries.iter().cycle().take(searches) {
        library.search(OPEN, r, query, &mut hits);
        listed += hits.count();
    }
    println!("{listed}");
}

fn main() {
    let given: Vec<String> = std::env::args().skip(1).collect();
    let mode = given.first().map_or("", String::as_str);
    if mode == "count" {
        return count(given[1].parse().unwrap(), given[2].parse().unwrap());
    }
    let print = Print { own: mode == "own" };
    if !print.own {
        println!("Nanoseconds a call. Searches: n pages, clustered, b 4, m 32, q 4, threshold 32, radius r, by a reader in so many groups; beside");
        println!("them a pointer trie that is given the open classes. Joins and leaves: of a reader who has so many groups with this one. Grants and");
        println!("revokes: of a group with so many members, each in so many groups. Checks: all readers in so many groups; beside them the plain");
        println!("test of the entries alone.");
        println!("call                                       this library   plain Rust   ratio");
    }
    SEARCHES.into_iter().for_each(|(n, nodes, r)| searches(&print, n, nodes, r));
    memberships(&print);
    grants(&print);
    checks(&print);
}
