//! Question 14: where it refuses a search, against a plain walk with the same budgets; which pages wrong signatures hide; and that no
//! damage makes a search slow.
use std::time::Duration;
use vetchdawn_tests::calls::{self, Given};
use vetchdawn_tests::clock::processor_time;
use vetchdawn_tests::lists::{right_by_the_rows, Lists};
use vetchdawn_tests::plain::{distance, nearest_first, Hit};
use vetchdawn_tests::random::Random;
use vetchdawn_tests::state::{EMPTY_LEAF, INNER};
use vetchdawn_tests::stores::{damaged, filled, small_settings};
use vetchdawn_tests::tables::{hit, Settings, Tables};
use vetchdawn_tests::walks::met;

/// All classes are open to reader 0.
fn open_all(t: &mut Tables) {
    assert_eq!(calls::join(t, 0, 0), 0);
    for class in 0..64 {
        assert_eq!(calls::grant(t, 0, class), 0);
    }
}

/// Tables of zeros, opened, all classes open to reader 0.
fn opened(s: &Settings) -> Tables {
    let mut t = Tables::filled_with(0, s);
    assert_eq!(calls::open(&mut t, s), 0);
    open_all(&mut t);
    t
}

fn settings(b: u32, m: u32, q: u32, pages: u32, nodes: u32, threshold: u16) -> Settings {
    Settings { b, m, q, pages, nodes, thresholds: vec![threshold; 64] }
}

/// The pages that are hits by their rows, by page number.
fn hits(t: &Tables, s: &Settings, reader: u32, radius: u32, query: &[u8]) -> Vec<Hit> {
    let row = |page: u32| hit(&t.settings, &t.pages, &t.sketches, reader, radius, query, page as usize);
    (0..s.pages).filter_map(|page| row(page).map(|distance| Hit { page, distance })).collect()
}

/// What the plain walk says that a search gives, with so much room for the pages and for the distances.
fn wanted(t: &Tables, s: &Settings, reader: u32, radius: u32, query: &[u8], rooms: [usize; 2]) -> (Given, Vec<Hit>) {
    let Some(met) = met(t, s, radius, query) else {
        return (Given { number: 14, value: 0 }, vec![]);
    };
    let list: Vec<Hit> = hits(t, s, reader, radius, query).into_iter().filter(|hit| met[hit.page as usize]).collect();
    let value = list.len() as u32;
    if rooms.iter().any(|&room| list.len() > room) {
        return (Given { number: 13, value }, vec![]);
    }
    (Given { number: 0, value }, nearest_first(list))
}

#[test]
fn as_a_plain_walk_has_it() {
    let mut random = Random::new(71);
    let mut numbers = [0u32; 16];
    let mut lists = Lists::new(50);
    // only the pages too short, only the distances; lists of more than one distance
    let (mut short, mut several) = ([0; 2], 0);
    for round in 0..4_000 {
        let s = small_settings(&mut random);
        let (mut t, sketches) = damaged(&mut random, &s, round);
        for _ in 0..8 {
            let (reader, radius, query) = (random.below(4) as u32, random.below(65) as u32, sketches.near(&mut random, 5));
            let few = random.below(4) as usize;
            let rooms = match random.below(6) {
                0 => [few, s.pages as usize],
                1 => [s.pages as usize, few],
                2 => [few, random.below(4) as usize],
                _ => [s.pages as usize; 2],
            };
            let want = wanted(&t, &s, reader, radius, &query, rooms);
            let found = lists.search(&mut t.lend(), reader, radius, &query, rooms);
            assert_eq!(found, want, "{s:?} {rooms:?}");
            // the same, said of the rows and without the walk
            assert!(right_by_the_rows(&t.lend(), reader, radius, &query, &found.1), "{s:?} {:?}", found.1);
            numbers[want.0.number as usize] += 1;
            several += usize::from(want.1.first().map(|hit| hit.distance) != want.1.last().map(|hit| hit.distance));
            if want.0.number == 13 {
                let enough = rooms.map(|room| room >= want.0.value as usize);
                short[0] += usize::from(enough[1]);
                short[1] += usize::from(enough[0]);
            }
        }
    }
    assert!(numbers[0] > 1_000 && numbers[13] > 1_000 && numbers[14] > 1_000, "{numbers:?}");
    assert!(several > 500 && short.iter().all(|&n| n > 200), "{several} {short:?}");
}

/// Rows, classes and rights alone are damaged, so that no walk is stopped: what is listed is right by the rows as they are then.
#[test]
fn right_by_damaged_rows() {
    let mut random = Random::new(74);
    let mut lists = Lists::new(50);
    let (mut listed, mut moved) = (0, 0);
    for _ in 0..1_000 {
        let s = small_settings(&mut random);
        let (mut t, plain, sketches) = filled(&mut random, &s, 60);
        open_all(&mut t);
        let (p, m) = (s.pages as usize, s.m as usize);
        for row in t.sketches[..p * m].chunks_mut(m) {
            match random.below(3) {
                // a symbol may be past its range, or the row be that of another page
                0 => row[random.below(m as u64) as usize] = random.next() as u8,
                1 => row.copy_from_slice(&sketches.near(&mut random, 5)),
                _ => {}
            }
        }
        for word in &mut t.pages[..p] {
            if random.below(6) == 0 {
                *word = random.below(70) as u32;
            }
        }
        for _ in 0..8 {
            let (radius, query) = (random.below(12) as u32, sketches.near(&mut random, 5));
            let want = wanted(&t, &s, 0, radius, &query, [p; 2]);
            let found = lists.search(&mut t.lend(), 0, radius, &query, [p; 2]);
            assert_eq!(found, want, "{s:?}");
            assert!(right_by_the_rows(&t.lend(), 0, radius, &query, &found.1), "{s:?} {:?}", found.1);
            listed += found.1.len();
            let was = |hit: &&Hit| plain.rows.get(&hit.page).is_some_and(|row| distance(&row.sketch, &query) != hit.distance);
            moved += found.1.iter().filter(was).count();
        }
    }
    assert!(listed > 5_000 && moved > 1_000, "{listed} {moved}");
}

/// Signatures alone are damaged: of the hits those are left out whose signature is too far, and no others.
#[test]
fn left_out_by_its_signature() {
    let mut random = Random::new(73);
    let mut lists = Lists::new(50);
    let (mut listed, mut left_out) = (0, 0);
    for _ in 0..1_000 {
        let s = small_settings(&mut random);
        let (mut t, _, sketches) = filled(&mut random, &s, 60);
        open_all(&mut t);
        let p = s.pages as usize;
        for word in &mut t.pages[p..2 * p] {
            if random.below(2) == 0 {
                *word ^= (random.next() & random.next()) as u32;
            }
        }
        for _ in 0..8 {
            let (radius, query) = (random.below(12) as u32, sketches.near(&mut random, 5));
            let want = wanted(&t, &s, 0, radius, &query, [p; 2]);
            assert_eq!(lists.search(&mut t.lend(), 0, radius, &query, [p; 2]), want, "{s:?}");
            listed += want.1.len();
            left_out += hits(&t, &s, 0, radius, &query).len() - want.1.len();
        }
    }
    assert!(listed > 5_000 && left_out > 5_000, "{listed} {left_out}");
}

/// Node x of a chain: its link, byte, state and the link of all its heads.
fn put(t: &mut Tables, cap: usize, x: usize, link: usize, byte: usize, state: u32, head: usize) {
    t.nodes[x] = (link + (byte << 19)) as u32;
    t.nodes[cap + x] = state;
    t.nodes[2 * cap + 8 * x..2 * cap + 8 * x + 8].fill(0);
    t.nodes[2 * cap + 8 * x] = head as u32;
}

/// A root over chains of `k` inner nodes, the nodes of each sharing the next chain; the last chain has leaves.
fn shared_chains(s: &Settings, levels: usize) -> Tables {
    let mut t = opened(s);
    let cap = s.nodes as usize;
    let k = (cap - 1) / levels;
    put(&mut t, cap, 0, 0, 0, INNER, 2);
    for level in 0..levels {
        let first = 1 + level * k;
        for i in 0..k {
            let (x, last) = (first + i, level + 1 == levels);
            let (state, head) = if last { (EMPTY_LEAF, 0) } else { (INNER, first + k + 1) };
            put(&mut t, cap, x, if i + 1 < k { x + 2 } else { 0 }, 0, state, head);
        }
    }
    t
}

/// A chain of leaves whose last leads back to its first.
fn cycle(s: &Settings) -> Tables {
    let mut t = shared_chains(s, 1);
    let cap = s.nodes as usize;
    put(&mut t, cap, cap - 1, 2, 0, EMPTY_LEAF, 0);
    t
}

/// Children at the edge of the radius, below each of which the query's own byte leads into a chain that leads back to itself.
fn cycles_below(s: &Settings) -> Tables {
    let mut t = opened(s);
    let cap = s.nodes as usize;
    put(&mut t, cap, 0, 0, 0, INNER, 2);
    for x in 1..cap - 1 {
        put(&mut t, cap, x, if x + 2 < cap { x + 2 } else { 0 }, 1, INNER, cap);
    }
    // the query's next byte is 1, this one's is 0: the descent goes on along the chain
    put(&mut t, cap, cap - 1, cap, 0, EMPTY_LEAF, 0);
    t
}

/// Two words of a sound store changed: a child of the first root, at the edge of the radius, follows itself and is its own child.
/// Gives the query too.
fn two_words(t: &mut Tables, s: &Settings) -> Vec<u8> {
    let cap = s.nodes as usize;
    let head = t.nodes[2 * cap] as usize;
    let x = head - 1;
    assert_eq!(t.nodes[cap + x], INNER, "a child that is inner");
    let byte = t.nodes[x] >> 19;
    let y = byte as u8 ^ 1; // one symbol differs
    t.nodes[x] = (head as u32) | byte << 19;
    t.nodes[2 * cap + 8 * x + 7] = head as u32;
    // the query: its first byte is at distance 1 from the child's, its second is above it and in the last chain
    let symbols = |v: u8| [v & 15, v >> 4];
    let mut query = vec![0u8; s.m as usize];
    query[..2].copy_from_slice(&symbols(y));
    query[2..4].copy_from_slice(&symbols(0xff));
    query
}

fn full_store(s: &Settings, random: &mut Random) -> Tables {
    let mut t = opened(s);
    for page in 0..s.pages {
        let x = random.bytes(s.m as usize, 1 << s.b);
        assert_eq!(calls::add(&mut t.lend(), page, page % 64, &x), 0);
    }
    t
}

/// A search by reader 0, and the processor time of the best of five.
fn timed(t: &mut Tables, radius: u32, query: &[u8]) -> (Given, Duration) {
    let (mut output, mut distances) = (vec![0u16; 65_535], vec![0u16; 65_535]);
    let mut run = || {
        let start = processor_time();
        let given = calls::search(&mut t.lend(), 0, radius, query, &mut output, &mut distances);
        (given, processor_time() - start)
    };
    let (given, first) = run();
    (given, (0..4).map(|_| run().1).fold(first, Duration::min))
}

#[test]
fn no_damage_makes_it_slow() {
    let mut random = Random::new(72);
    // the slowest search of a sound store of full capacity: every page is met in every block, and listed
    let s = settings(4, 32, 4, 65_535, 262_144, 32);
    let mut t = full_store(&s, &mut random);
    let (given, sound) = timed(&mut t, 64, &[0; 32]);
    assert_eq!(given, Given { number: 0, value: 65_535 });
    println!("a sound store of 65,535 pages, all listed: {:.2} ms", sound.as_secs_f64() * 1e3);

    let stopped = Given { number: 14, value: 0 };
    let mut slowest = Duration::ZERO;
    let mut report = |name: &str, nodes: u32, t: &mut Tables, s: &Settings, radius: u32, query: &[u8]| {
        assert_eq!(wanted(t, s, 0, radius, query, [65_535; 2]), (stopped, vec![]), "{name}");
        let (given, time) = timed(t, radius, query);
        assert_eq!(given, stopped, "{name}");
        println!("{name}, {nodes} nodes: 14 in {:.3} ms", time.as_secs_f64() * 1e3);
        slowest = slowest.max(time);
    };
    for nodes in [64, 8_192, 65_536, 262_144] {
        let s = settings(8, 4, 1, 100, nodes, 1);
        // within radius 1 of byte 0 are the nodes of byte 0; radius 1 left for each chain in turn
        report("two shared chains", nodes, &mut shared_chains(&s, 2), &s, 1, &[0, 0, 0, 0]);
        report("three shared chains", nodes, &mut shared_chains(&s, 3), &s, 1, &[0, 0, 0, 0]);
        // at the edge: exact descents into a shared chain
        report("exact descents into a shared chain", nodes, &mut shared_chains(&s, 2), &s, 1, &[7, 9, 0, 0]);
        report("a cycle", nodes, &mut cycle(&s), &s, 1, &[0, 0, 0, 0]);
        report("cycles below exact descents", nodes, &mut cycles_below(&s), &s, 1, &[0, 1, 0, 0]);
        report("a cycle in an exact descent", nodes, &mut cycle(&s), &s, 0, &[9, 0, 0, 0]);
    }
    let s = settings(4, 32, 2, 65_535, 262_144, 32);
    let mut t = full_store(&s, &mut random);
    let query = two_words(&mut t, &s);
    report("two words of a sound store", 262_144, &mut t, &s, 2, &query);
    assert!(slowest < sound, "{slowest:?}, {sound:?}");
}
