//! Calls of every kind on tables of any lengths and contents, with a guard before and behind each. FUZZ_SECONDS says how long.
//! No call faults or hangs, no closed, far or dead page is listed, each listed one has the distance of its row and its place by that,
//! refusals change nothing; joins, leaves, grants and revokes write what plain Rust writes; a store that calls have made stays sound, every
//! inner node in it has children, and after every call each leaf has the number of its pages.
use std::time::{Duration, Instant};
use vetchdawn_tests::calls::{self, Lent};
use vetchdawn_tests::guard::{Guarded, GuardedTables};
use vetchdawn_tests::lists::{right_by_the_rows, Lists};
use vetchdawn_tests::random::Random;
use vetchdawn_tests::sound::{numbers_hold, sound};
use vetchdawn_tests::state::{FREE_NODE, INNER};
use vetchdawn_tests::stores::{any_tables, cut_short, damage, damage_right, damage_way, deep_settings, scramble, small_settings, Sketches};
use vetchdawn_tests::tables::{class_of, opens, stale, Settings, Tables, SETTINGS};

/// A number that is mostly below `n`.
fn around(random: &mut Random, n: u64) -> u32 {
    match random.below(50) {
        0 => n as u32,
        1 => random.next() as u32,
        _ => random.below(n) as u32,
    }
}

/// Tables that were opened and filled, or not, and then damaged, or not, and cut to what is needed, or shorter; and whether they are intact.
fn tables(random: &mut Random, s: &Settings, sketches: &Sketches) -> (Tables, bool) {
    let mut t = any_tables(random, s);
    let mut intact = false;
    if random.below(20) != 0 {
        assert_eq!(calls::open(&mut t, s), 0);
        for _ in 0..random.below(60) {
            let (page, class, x) = (random.below(u64::from(s.pages)) as u32, random.below(64) as u32, sketches.near(random, 4));
            calls::add(&mut t.lend(), page, class, &x);
        }
        for _ in 0..random.below(30) {
            calls::join(&mut t, random.below(3) as u32, random.below(4) as u32);
            calls::grant(&mut t, random.below(4) as u32, random.below(64) as u32);
        }
        match random.below(10) {
            0 => scramble(random, &mut t, s),
            1 | 2 => damage(random, &mut t, s),
            3 => {
                let at = random.below(t.settings.len() as u64) as usize;
                t.settings[at] = random.next() as u32;
            }
            4 | 5 => {
                if let Some(page) = (0..s.pages).find(|&page| t.pages[page as usize] != 0) {
                    damage_way(random, &mut t, s, page);
                }
            }
            6 => damage_right(random, &mut t.settings),
            _ => intact = true,
        }
    }
    t.cut(&s.lengths());
    if random.below(12) == 0 {
        cut_short(random, &mut t, s, 5);
        intact = false;
    }
    (t, intact)
}

/// What is lent beside the tables: a sketch, and the lists of a search. And how often both lists were long enough, or only the distances,
/// only the pages, or neither; how many pages were listed; and how many joins, leaves, grants and revokes changed a table.
struct Beside {
    sketch: Guarded<u8>,
    lists: Lists,
    rooms: [u64; 4],
    listed: u64,
    rights: [u64; 4],
}

fn search(random: &mut Random, t: &mut Lent, s: &Settings, beside: &mut Beside) -> u32 {
    let (reader, radius) = (around(random, 4), around(random, 65));
    let query = beside.sketch.get();
    let room = |random: &mut Random| random.below(u64::from(s.pages) + 2) as usize;
    let first = room(random);
    let rooms = [first, if random.below(2) == 0 { first } else { room(random) }];
    let (given, list) = beside.lists.search(t, reader, radius, query, rooms);
    if given.number == 0 || given.number == 13 {
        let [pages, distances] = rooms.map(|room| room < given.value as usize);
        assert_eq!(given.number == 13, pages || distances, "{given:?} with {rooms:?} places");
        beside.rooms[usize::from(pages) + 2 * usize::from(distances)] += 1;
    }
    beside.listed += list.len() as u64;
    assert!(right_by_the_rows(t, reader, radius, query, &list), "a page that must not be listed so: {list:?}");
    given.number
}

/// A join, leave, grant or revoke: what it gives and every word of the settings is as in plain Rust, whatever they held.
fn right(random: &mut Random, t: &mut Lent, beside: &mut Beside) -> u32 {
    let call = random.below(4);
    // mostly of few readers and groups, so that they meet
    let few = random.below(4) != 0;
    let limits = match (call < 2, few) {
        (true, true) => [4, 4],
        (true, false) => [256, 32],
        (false, true) => [4, 8],
        (false, false) => [32, 64],
    };
    let [x, y] = limits.map(|limit| around(random, limit));
    let before = t.settings.to_vec();
    let mut plain = Tables { settings: before.clone(), ..Tables::default() };
    let number = calls::lent_right(t, call, x, y);
    assert_eq!(number, plain.right(call, x, y), "{call} {x} {y}");
    assert!(*t.settings == *plain.settings, "{call} {x} {y}");
    beside.rights[call as usize] += u64::from(*t.settings != *before);
    number
}

/// A blank page is refused by 15 at the latest, and no other is.
fn add(random: &mut Random, t: &mut Lent, page: u32, sketch: &[u8]) -> u32 {
    let number = calls::add(t, page, around(random, 64), sketch);
    let blank = sketch.iter().all(|&symbol| symbol == 0);
    assert!(if blank { matches!(number, 5..=10 | 15) } else { number != 15 }, "{number} {sketch:?}");
    number
}

/// A check that says yes has seen no stale entry.
fn check(t: &mut Lent) -> u32 {
    let (number, yes) = calls::check(t);
    assert!(!yes || stale(t.settings).is_empty(), "a stale entry, and the check says yes");
    number
}

/// What was called: an add, a drop, a search or a check, which may write the working table, or something else.
#[derive(Clone, Copy, PartialEq)]
enum Kind {
    Add,
    Drop,
    Reading,
    Other,
}

/// One call, in a withdrawal no add; its number.
fn call(random: &mut Random, t: &mut Lent, s: &Settings, sketches: &Sketches, beside: &mut Beside, withdrawal: bool) -> (u32, Kind) {
    let page = around(random, u64::from(s.pages));
    let mut x = sketches.near(random, 4);
    match random.below(60) {
        0 => x.push(0),
        1 => x.truncate(x.len() - 1),
        2 => x[0] = random.next() as u8,
        3 => x.fill(0),
        _ => {}
    }
    beside.sketch.set(&x);
    match random.below(20) {
        0..=3 if !withdrawal => (add(random, t, page, beside.sketch.get()), Kind::Add),
        0..=6 => (calls::drop(t, page), Kind::Drop),
        7..=10 => (search(random, t, s, beside), Kind::Reading),
        11 => (check(t), Kind::Reading),
        12..=16 => (right(random, t, beside), Kind::Other),
        17 | 18 => {
            let reader = around(random, 4);
            let number = match calls::lent_show(t, reader, page) {
                Ok((start, length)) => {
                    let m = t.settings[2] as usize;
                    assert_eq!((start, length), (page as usize * m, m));
                    assert!(class_of(t.pages, page as usize).is_some_and(|class| opens(t.settings, reader, class)));
                    0
                }
                Err(number) => number,
            };
            (number, Kind::Other)
        }
        _ if random.below(20) == 0 => (calls::lent_open(t, s), Kind::Other),
        _ => (calls::drop(t, page), Kind::Drop),
    }
}

fn childless(t: &Tables, s: &Settings) -> bool {
    let n = s.nodes as usize;
    (0..n).any(|x| t.nodes[n + x] == INNER && t.nodes[2 * n + 8 * x..][..8].iter().all(|&head| head == 0))
}

/// Of the drops that were carried out: how many gave back two nodes or more, took out an inner node, and took out two.
#[derive(Default, Debug)]
struct Drops {
    all: u64,
    two_nodes: u64,
    inner: u64,
    two_inner: u64,
}

impl Drops {
    /// Of the states of the nodes, before and after one.
    fn count(&mut self, before: &[u32], after: &[u32]) {
        let states = || before.iter().zip(after);
        let freed = states().filter(|(&was, &is)| was != FREE_NODE && is == FREE_NODE).count();
        let inner = states().filter(|(&was, &is)| was == INNER && is != INNER).count();
        self.all += 1;
        self.two_nodes += u64::from(freed >= 2);
        self.inner += u64::from(inner >= 1);
        self.two_inner += u64::from(inner >= 2);
    }
}

#[test]
fn any_call_on_any_tables() {
    let seconds = std::env::var("FUZZ_SECONDS").ok().and_then(|s| s.parse().ok()).unwrap_or(10);
    let end = Instant::now() + Duration::from_secs(seconds);
    let mut random = Random::new(61);
    let mut numbers = [0u64; 16];
    // of stores that are intact, and of others
    let mut drops = [Drops::default(), Drops::default()];
    // tables with stale entries; adds and drops behind which the numbers of all leaves were looked at
    let (mut with_stale, mut numbered) = (0, 0);
    let mut beside = Beside { sketch: Guarded::new(&[0; 65]), lists: Lists::new(50), rooms: [0; 4], listed: 0, rights: [0; 4] };
    while Instant::now() < end {
        let s = if random.below(2) == 0 { small_settings(&mut random) } else { deep_settings(&mut random) };
        let sketches = Sketches::new(&mut random, s.b, s.m, 3);
        let (t, intact) = tables(&mut random, &s, &sketches);
        let mut lent = if random.below(2) == 0 { GuardedTables::new(&t) } else { GuardedTables::at_start(&t) };
        with_stale += u64::from(t.settings.len() >= SETTINGS && !stale(&t.settings).is_empty());
        let mut before = t;
        for i in 0..200 {
            // rights are damaged between calls too
            if !intact && before.settings.len() >= SETTINGS && random.below(100) == 0 {
                damage_right(&mut random, lent.lend().settings);
                before.settings.copy_from_slice(lent.lend().settings);
            }
            let (number, kind) = call(&mut random, &mut lent.lend(), &s, &sketches, &mut beside, i >= 100);
            numbers[number as usize] += 1;
            let now = lent.lend();
            if number == 0 && kind == Kind::Drop {
                let cap = now.settings[5] as usize;
                drops[usize::from(intact)].count(&before.nodes[cap..2 * cap], &now.nodes[cap..2 * cap]);
            }
            assert!(!intact || number != 14, "14 on a sound store");
            if number != 0 && number != 14 {
                let same = *now.settings == *before.settings && *now.nodes == *before.nodes && *now.pages == *before.pages && *now.sketches == *before.sketches;
                assert!(same && (kind == Kind::Reading || *now.working == *before.working), "refused by {number}, and a table changed");
            }
            before.settings.copy_from_slice(now.settings);
            before.nodes.copy_from_slice(now.nodes);
            before.pages.copy_from_slice(now.pages);
            before.sketches.copy_from_slice(now.sketches);
            before.working.copy_from_slice(now.working);
            if intact && number == 0 && (kind == Kind::Add || kind == Kind::Drop) {
                assert!(numbers_hold(&before, &s), "a leaf whose number is not that of its pages, {s:?}");
                numbered += 1;
            }
        }
        assert!(!intact || sound(&before, &s) && calls::check(&mut lent.lend()) == (0, true), "no longer sound, {s:?}");
        assert!(!intact || !childless(&before, &s), "an inner node without children, {s:?}");
    }
    println!("{} calls in {seconds} s, by number: {numbers:?}", numbers.iter().sum::<u64>());
    println!("pages listed: {}; both lists long enough, pages too short, distances, both: {:?}", beside.listed, beside.rooms);
    println!("joins, leaves, grants and revokes that changed a table: {:?}; tables with stale entries: {with_stale}", beside.rights);
    println!("adds and drops on sound stores, the numbers of all leaves right after each: {numbered}");
    println!("drops on other tables: {:?}", drops[0]);
    println!("drops on sound stores: {:?}", drops[1]);
    assert!(drops.iter().all(|d| 10 * d.inner > d.all && 20 * d.two_inner > d.all), "{drops:?}");
    assert!([0, 5, 6, 7, 8, 9, 10, 11, 12, 13, 14, 15].iter().all(|&n| numbers[n] > 0), "{numbers:?}");
    assert!(numbered > 1_000 && with_stale > 100 && beside.rights.iter().all(|&n| n > 1_000), "{numbered} {with_stale} {:?}", beside.rights);
    assert!(beside.listed > 1_000 && beside.rooms.iter().all(|&n| n > 100), "{} {:?}", beside.listed, beside.rooms);
}
