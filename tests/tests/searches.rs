//! Search through C against a plain scan: which pages, at which distances, in which order, in lists of any two lengths; and on damaged
//! tables nothing closed, far or dead is listed.
use vetchdawn_tests::calls::{self, Given};
use vetchdawn_tests::guard::{Guarded, GuardedTables};
use vetchdawn_tests::lists::{right_by_the_rows, Lists};
use vetchdawn_tests::plain::{distance, nearest_first, Hit};
use vetchdawn_tests::random::Random;
use vetchdawn_tests::stores::{cut_short, damaged, filled, small_settings, Sketches};
use vetchdawn_tests::tables::{Settings, Tables};

fn radius_of(random: &mut Random) -> u32 {
    match random.below(12) {
        0 => 65,
        1 => random.next() as u32,
        2 => 64,
        3..=5 => random.below(65) as u32,
        _ => random.below(6) as u32,
    }
}

fn reader_of(random: &mut Random) -> u32 {
    match random.below(30) {
        0 => 256,
        1 => random.next() as u32,
        2 => 255,
        _ => random.below(4) as u32,
    }
}

fn query_of(random: &mut Random, s: &Settings, sketches: &Sketches) -> Vec<u8> {
    let mut x = sketches.near(random, 5);
    match random.below(40) {
        0 => x.push(0),
        1 => x.truncate(x.len() - 1),
        2 if s.b < 8 => x[0] = 1 << s.b,
        3 | 4 => x.fill(0),
        _ => {}
    }
    x
}

/// The working table as a search past question 6 leaves it.
fn cleared(before: &[u32], s: &Settings) -> Vec<u32> {
    let mut after = before.to_vec();
    after[..s.lengths().working].fill(0);
    after
}

#[test]
fn against_a_scan() {
    let mut random = Random::new(31);
    let mut numbers = [0u32; 16];
    let mut lists = Lists::new(50);
    // of 13: only the pages are too short, only the distances, both
    let (mut listed, mut turned, mut short) = (0, 0, [0; 3]);
    for _ in 0..4_000 {
        let s = small_settings(&mut random);
        let (mut t, mut plain, sketches) = filled(&mut random, &s, 60);
        for _ in 0..12 {
            // rights churn between searches
            let (reader, group, class) = (random.below(4) as u32, random.below(6) as u32, random.below(64) as u32);
            match random.below(4) {
                0 => assert_eq!(calls::join(&mut t, reader, group), plain.join(reader, group)),
                1 => assert_eq!(calls::leave(&mut t, reader, group), plain.leave(reader, group)),
                2 => assert_eq!(calls::grant(&mut t, group, class), plain.grant(group, class)),
                _ => assert_eq!(calls::revoke(&mut t, group, class), plain.revoke(group, class)),
            }
            for word in &mut t.working {
                *word = random.next() as u32;
            }
            let (reader, radius, query) = (reader_of(&mut random), radius_of(&mut random), query_of(&mut random, &s, &sketches));
            let before = t.clone();
            let mut room = || match random.below(6) {
                0 => random.below(4) as usize,
                _ => s.pages as usize + random.below(3) as usize,
            };
            let rooms = [room(), room()];
            let found = lists.search(&mut t.lend(), reader, radius, &query, rooms);
            let (number, value, list) = match plain.search(reader, radius, &query) {
                Err(number) => (number, 0, vec![]),
                Ok(list) if rooms.iter().any(|&room| list.len() > room) => (13, list.len() as u32, vec![]),
                Ok(list) => (0, list.len() as u32, list),
            };
            numbers[number as usize] += 1;
            listed += list.len();
            turned += u32::from(!list.is_sorted_by_key(|hit| hit.page));
            if number == 13 {
                let enough = rooms.map(|room| room >= value as usize);
                short[if enough[1] { 0 } else if enough[0] { 1 } else { 2 }] += 1;
            }
            assert_eq!(found, (Given { number, value }, list), "{s:?} {rooms:?}");
            assert_eq!(t.working, cleared(&before.working, &s));
            let working = before.working.clone();
            t.working = working;
            assert!(t == before, "a search changed a table");
        }
    }
    assert!([0, 7, 10, 11, 13].iter().all(|&n| numbers[n] > 50), "{numbers:?}");
    assert!(listed > 20_000 && turned > 2_000, "{listed} listed, {turned} lists not by page number");
    assert!(short.iter().all(|&n| n > 50), "{short:?}");
}

/// A store of 8 blocks of 8 bytes, all classes open to reader 0, and the query that its sketches are drawn around.
struct Around {
    t: Tables,
    query: [u8; 64],
}

impl Around {
    fn new(random: &mut Random, pages: u32) -> Self {
        let s = Settings { b: 8, m: 64, q: 8, pages, nodes: 8 + 8 * 8 * pages, thresholds: vec![1; 64] };
        let mut t = Tables::filled_with(0, &s);
        assert_eq!((calls::open(&mut t, &s), calls::join(&mut t, 0, 0)), (0, 0));
        assert!((0..64).all(|class| calls::grant(&mut t, 0, class) == 0));
        Around { t, query: std::array::from_fn(|_| random.next() as u8) }
    }

    /// Adds a page at this distance from the query.
    fn add(&mut self, random: &mut Random, page: u32, distance: u32) {
        let mut x = self.query;
        let mut places: Vec<usize> = (0..64).collect();
        for _ in 0..distance {
            let at = places.swap_remove(random.below(places.len() as u64) as usize);
            x[at] ^= 1 + random.below(255) as u8;
        }
        assert_eq!(calls::add(&mut self.t.lend(), page, page % 64, &x), 0);
    }
}

fn shuffled(random: &mut Random, pages: u32) -> Vec<u32> {
    let mut pages: Vec<u32> = (0..pages).collect();
    for i in (1..pages.len()).rev() {
        pages.swap(i, random.below(i as u64 + 1) as usize);
    }
    pages
}

/// Five pages at each distance from 0 to 64, added in any order: those at one distance stand by page number, and a radius ends the list.
#[test]
fn every_distance() {
    let mut random = Random::new(34);
    let mut lists = Lists::new(400);
    for _ in 0..20 {
        let mut store = Around::new(&mut random, 325);
        let mut at_distance = vec![Vec::new(); 65];
        for (i, page) in (0..).zip(shuffled(&mut random, 325)) {
            at_distance[i % 65].push(page);
            store.add(&mut random, page, i as u32 % 65);
        }
        at_distance.iter_mut().for_each(|pages| pages.sort());
        let mut want = Vec::new();
        for (radius, pages) in (0..).zip(&at_distance) {
            want.extend(pages.iter().map(|&page| Hit { page, distance: radius }));
            let given = Given { number: 0, value: want.len() as u32 };
            assert_eq!(want.len(), 5 * (radius as usize + 1));
            assert_eq!(lists.search(&mut store.t.lend(), 0, radius, &store.query, [want.len(), 400]), (given, want.clone()));
        }
    }
}

/// Lists of every length from 300 down to none, in stores of few distances and of many.
#[test]
fn every_length() {
    let mut random = Random::new(35);
    let mut lists = Lists::new(300);
    for (least, most) in [(0, 64), (0, 0), (64, 64), (63, 64), (0, 2), (10, 40)] {
        let mut store = Around::new(&mut random, 300);
        let mut all = Vec::new();
        for page in shuffled(&mut random, 300) {
            let distance = least + random.below(u64::from(most - least) + 1) as u32;
            store.add(&mut random, page, distance);
            all.push(Hit { page, distance });
        }
        for page in shuffled(&mut random, 300) {
            for radius in [64, random.below(65) as u32] {
                let want = nearest_first(all.iter().copied().filter(|hit| hit.distance <= radius).collect());
                let given = Given { number: 0, value: want.len() as u32 };
                let rooms = [want.len(), 300];
                let rooms = if random.below(2) == 0 { rooms } else { [rooms[1], rooms[0]] };
                assert_eq!(lists.search(&mut store.t.lend(), 0, radius, &store.query, rooms), (given, want));
            }
            assert_eq!(calls::drop(&mut store.t.lend(), page), 0);
            all.retain(|hit| hit.page != page);
        }
        assert_eq!(lists.search(&mut store.t.lend(), 0, 64, &store.query, [0; 2]), (Given { number: 0, value: 0 }, vec![]));
    }
}

/// As many pages as there can be, and the last of them.
#[test]
fn at_full_size() {
    let mut random = Random::new(36);
    let s = Settings { b: 4, m: 32, q: 4, pages: 65_535, nodes: 262_144, thresholds: vec![32; 64] };
    let mut t = Tables::filled_with(0, &s);
    assert_eq!((calls::open(&mut t, &s), calls::join(&mut t, 0, 0)), (0, 0));
    assert!((0..64).all(|class| calls::grant(&mut t, 0, class) == 0));
    let centres = Sketches::new(&mut random, 4, 32, 100);
    let sketches: Vec<Vec<u8>> = (0..65_535).map(|_| centres.near(&mut random, 30)).collect();
    for (page, x) in (0..).zip(&sketches) {
        assert_eq!(calls::add(&mut t.lend(), page, page % 64, x), 0);
    }
    let mut lists = Lists::new(65_536);
    let query = &sketches[65_534];
    let mut lengths = Vec::new();
    for radius in [0, 4, 8, 16, 24, 28, 30, 64] {
        let measured = (0..).zip(&sketches).map(|(page, x)| Hit { page, distance: distance(x, query) });
        let want = nearest_first(measured.filter(|hit| hit.distance <= radius).collect());
        let value = want.len() as u32;
        lengths.push(value);
        for rooms in [[want.len() - 1, 65_536], [65_536, want.len() - 1]] {
            assert_eq!(lists.search(&mut t.lend(), 0, radius, query, rooms), (Given { number: 13, value }, vec![]));
        }
        let found = lists.search(&mut t.lend(), 0, radius, query, [want.len(), 65_536]);
        assert!(found == (Given { number: 0, value }, want), "radius {radius}");
    }
    assert!(lengths.is_sorted() && lengths[0] >= 1 && lengths[3] > 100 && lengths[7] == 65_535, "{lengths:?}");
}

/// Either list short by one or by more, beside another of any length: 13 with the count. Both long enough: what they have beyond it stays.
#[test]
fn lists_of_unequal_lengths() {
    let mut random = Random::new(37);
    let mut lists = Lists::new(60);
    let mut seen = [0; 2];
    for _ in 0..400 {
        let s = small_settings(&mut random);
        let (mut t, mut plain, sketches) = filled(&mut random, &s, 60);
        for class in 0..64 {
            assert_eq!((calls::grant(&mut t, 0, class), plain.grant(0, class)), (0, 0));
        }
        assert_eq!((calls::join(&mut t, 0, 0), plain.join(0, 0)), (0, 0));
        let (radius, query) = (random.below(12) as u32, sketches.near(&mut random, 5));
        let want = plain.search(0, radius, &query).unwrap();
        let (count, value) = (want.len(), want.len() as u32);
        let lengths = [0, 1, count / 2, count.saturating_sub(1), count, count + 1, count + 7];
        for rooms in lengths.iter().flat_map(|&pages| lengths.map(|distances| [pages, distances])) {
            let found = lists.search(&mut t.lend(), 0, radius, &query, rooms);
            if rooms[0] < count || rooms[1] < count {
                assert_eq!(found, (Given { number: 13, value }, vec![]), "{rooms:?}");
                seen[0] += 1;
            } else {
                assert_eq!(found, (Given { number: 0, value }, want.clone()), "{rooms:?}");
                seen[1] += 1;
            }
        }
    }
    assert!(seen.iter().all(|&n| n > 3_000), "{seen:?}");
}

/// Each refusal in its place among the questions: both lists stay as they were, whether or not they are long enough.
#[test]
fn a_refusal_leaves_both() {
    let s = Settings { b: 2, m: 4, q: 2, pages: 8, nodes: 40, thresholds: vec![0; 64] };
    let mut t = Tables::filled_with(0, &s);
    assert_eq!((calls::open(&mut t, &s), calls::join(&mut t, 5, 1), calls::grant(&mut t, 1, 3)), (0, 0, 0));
    for (page, x) in [(7, [0, 1, 2, 3]), (2, [0, 1, 0, 0]), (4, [0, 1, 2, 3])] {
        assert_eq!(calls::add(&mut t.lend(), page, 3, &x), 0);
    }
    let mut lists = Lists::new(9);
    let query = [0, 1, 2, 3];
    let mut refused = |t: &mut Tables, reader: u32, radius: u32, query: &[u8], number: u32| {
        for rooms in [[9, 9], [9, 0], [0, 9], [0, 0], [3, 2], [2, 3], [3, 3]] {
            assert_eq!(lists.search(&mut t.lend(), reader, radius, query, rooms), (Given { number, value: 0 }, vec![]), "{rooms:?}");
        }
    };
    // 7, then 10, then 11
    refused(&mut t, 256, 64, &query, 7);
    refused(&mut t, 5, 65, &query, 7);
    refused(&mut t, 5, u32::MAX, &[9], 7);
    refused(&mut t, 5, 64, &query[..3], 10);
    refused(&mut t, 5, 64, &[4; 5], 10);
    refused(&mut t, 5, 64, &[0, 1, 2, 4], 11);
    // tables too short, and no opening
    for (length, number) in [(0, 5), (1, 6), (2, 6), (3, 6), (4, 6)] {
        let (mut short, mut l) = (t.clone(), s.lengths());
        *l.each()[length] -= 1;
        short.cut(&l);
        refused(&mut short, 256, 65, &[9], number);
    }
    let mut closed = t.clone();
    closed.settings[0] ^= 1;
    refused(&mut closed, 256, 65, &[9], 6);
    // a head of the first root leads outside: asked ahead of 13
    let mut damaged = t.clone();
    damaged.nodes[2 * 40] = 41;
    refused(&mut damaged, 5, 64, &query, 14);
    refused(&mut damaged, 5, 65, &query, 7);
    // 13 last, and only with the count
    for rooms in [[2, 9], [9, 2], [0, 0], [0, 3], [3, 0], [2, 2]] {
        assert_eq!(lists.search(&mut t.lend(), 5, 64, &query, rooms), (Given { number: 13, value: 3 }, vec![]), "{rooms:?}");
    }
    let list = [(4, 0), (7, 0), (2, 2)].map(|(page, distance)| Hit { page, distance });
    for rooms in [[3, 3], [9, 3], [3, 9], [9, 9]] {
        assert_eq!(lists.search(&mut t.lend(), 5, 64, &query, rooms), (Given { number: 0, value: 3 }, list.to_vec()), "{rooms:?}");
    }
    // nothing listed: no places are needed
    for rooms in [[0, 0], [0, 9], [9, 0]] {
        assert_eq!(lists.search(&mut t.lend(), 6, 64, &query, rooms), (Given { number: 0, value: 0 }, vec![]), "{rooms:?}");
    }
}

#[test]
fn short_tables() {
    let mut random = Random::new(32);
    let mut lists = Lists::new(60);
    for _ in 0..600 {
        let s = small_settings(&mut random);
        let (mut t, _, sketches) = filled(&mut random, &s, 20);
        let number = cut_short(&mut random, &mut t, &s, 5);
        let before = t.clone();
        let query = sketches.near(&mut random, 2);
        let rooms = [random.below(60) as usize, random.below(60) as usize];
        assert_eq!(lists.search(&mut t.lend(), 1, 3, &query, rooms), (Given { number, value: 0 }, vec![]));
        assert!(t == before);
    }
}

#[test]
fn damaged_tables() {
    let mut random = Random::new(33);
    let mut numbers = [0u32; 16];
    let (mut lists, mut listed) = (Lists::new(50), 0);
    for round in 0..3_000 {
        let s = small_settings(&mut random);
        let (mut t, sketches) = damaged(&mut random, &s, round);
        t.cut(&s.lengths());
        let mut lent = GuardedTables::new(&t);
        for _ in 0..8 {
            let (reader, radius, query) = (random.below(4) as u32, random.below(65) as u32, sketches.near(&mut random, 5));
            let mut room = || random.below(u64::from(s.pages) + 3) as usize;
            let rooms = [room(), room()];
            let query = Guarded::new(&query);
            let (given, list) = lists.search(&mut lent.lend(), reader, radius, query.get(), rooms);
            numbers[given.number as usize] += 1;
            listed += list.len();
            let after = lent.tables();
            assert_eq!(after.working, vec![0; t.working.len()]);
            assert!((&after.settings, &after.nodes, &after.pages, &after.sketches) == (&t.settings, &t.nodes, &t.pages, &t.sketches));
            assert!(match given.number {
                0 => given.value as usize == list.len(),
                13 => rooms.iter().any(|&room| room < given.value as usize),
                number => number == 14,
            });
            assert!(right_by_the_rows(&t.lend(), reader, radius, query.get(), &list), "{list:?}");
        }
    }
    assert!(listed > 5_000, "{listed}");
    assert!([0, 13, 14].iter().all(|&n| numbers[n] > 100), "{numbers:?}");
}
