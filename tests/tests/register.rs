//! Opening, the rights register and showing through C, against plain Rust: numbers and every table, word by word.
use vetchdawn_tests::calls::{self, Lent};
use vetchdawn_tests::guard::Guarded;
use vetchdawn_tests::random::Random;
use vetchdawn_tests::stores::cut_short;
use vetchdawn_tests::tables::{entry, is_member, stale, Lengths, Settings, Tables, ENTRIES, FREE, GRANTS, MARK, MEMBERS, SETTINGS};

/// A number within its limits, now and then at or past them.
fn near(random: &mut Random, low: u32, high: u32) -> u32 {
    match random.below(24) {
        0 => low.wrapping_sub(1),
        1 => high + 1,
        2 => random.next() as u32,
        3 => low,
        4 => high,
        _ => low + random.below(u64::from(high - low) + 1) as u32,
    }
}

/// Settings for small tables, mostly within the limits.
fn settings(random: &mut Random) -> Settings {
    let m = near(random, 1, 64);
    let q = near(random, 1, 8.min(m.clamp(1, 64)));
    let count = if random.below(20) == 0 { random.below(70) as usize } else { 64 };
    Settings {
        b: near(random, 1, 8),
        m,
        q,
        pages: if random.below(40) == 0 { near(random, 1, 65_535) } else { 1 + random.below(70) as u32 },
        nodes: if random.below(40) == 0 { near(random, q, 262_144) } else { q.clamp(1, 8) + random.below(60) as u32 },
        thresholds: (0..count).map(|_| random.next() as u16).collect(),
    }
}

fn words(random: &mut Random, n: usize) -> Vec<u32> {
    (0..n)
        .map(|_| match random.below(4) {
            0 => 0,
            1 => random.below(3) as u32,
            _ => random.next() as u32,
        })
        .collect()
}

/// Tables full of anything: long enough for the settings, with a rest behind, or one of them too short.
fn tables(random: &mut Random, s: &Settings) -> Tables {
    let small = s.pages < 200 && s.nodes < 2_000 && s.m <= 64 && s.q <= 8;
    let mut l = if small { s.lengths() } else { Lengths { settings: SETTINGS, nodes: 40, pages: 40, sketches: 40, working: 40 } };
    for length in l.each() {
        *length += random.below(3) as usize;
    }
    if random.below(6) == 0 {
        let short = l.each().into_iter().nth(random.below(5) as usize).unwrap();
        *short = short.saturating_sub(1 + random.below(4) as usize);
    }
    Tables {
        settings: words(random, l.settings),
        nodes: words(random, l.nodes),
        pages: words(random, l.pages),
        sketches: random.bytes(l.sketches, 256),
        working: words(random, l.working),
    }
}

/// Tables opened, then with some words of theirs damaged.
fn opened(random: &mut Random) -> (Settings, Tables) {
    loop {
        let s = settings(random);
        let mut t = tables(random, &s);
        if t.open(&s) != 0 {
            continue;
        }
        let p = s.pages as usize;
        for i in 0..p {
            // not live, of a class above 63, or of one below 64
            t.pages[i] = match random.below(8) {
                0 => 0,
                1 => [65, 96, 97, u32::MAX][random.below(4) as usize],
                _ => 1 + random.below(64) as u32,
            };
            t.pages[p + i] = random.next() as u32;
        }
        if random.below(3) == 0 {
            for _ in 0..800 {
                let at = MEMBERS + random.below((FREE - MEMBERS) as u64) as usize;
                t.settings[at] = random.next() as u32;
            }
        }
        if random.below(8) == 0 {
            let at = random.below(MEMBERS as u64) as usize;
            t.settings[at] = if random.below(2) == 0 { random.next() as u32 } else { t.settings[at] ^ (1 << random.below(32)) };
        }
        return (s, t);
    }
}

#[test]
fn opening() {
    let mut random = Random::new(11);
    let mut accepted = 0;
    for _ in 0..20_000 {
        let s = settings(&mut random);
        let mut ours = tables(&mut random, &s);
        if random.below(3) == 0 && !ours.settings.is_empty() {
            ours.settings[0] = MARK;
        }
        let mut plain = ours.clone();
        let number = calls::open(&mut ours, &s);
        assert_eq!(number, plain.open(&s), "{s:?}");
        assert!(ours == plain, "{s:?}");
        accepted += u32::from(number == 0);
    }
    assert!(accepted > 2_000, "{accepted} accepted");
}

#[test]
fn opening_at_full_capacity() {
    let s = Settings { b: 4, m: 32, q: 4, pages: 65_535, nodes: 262_144, thresholds: vec![32; 64] };
    let mut ours = Tables::filled_with(7, &s);
    let mut plain = ours.clone();
    assert_eq!((calls::open(&mut ours, &s), plain.open(&s)), (0, 0));
    assert!(ours == plain);
}

const JOIN: u64 = 0;
const LEAVE: u64 = 1;
const GRANT: u64 = 2;
const REVOKE: u64 = 3;

/// A settings table with a guard right behind it, and the same in plain Rust.
struct Both {
    ours: Guarded<u32>,
    plain: Tables,
}

impl Both {
    fn of(settings: &[u32]) -> Self {
        Both { ours: Guarded::new(settings), plain: Tables { settings: settings.to_vec(), ..Tables::default() } }
    }

    /// Opened, and nothing more.
    fn fresh() -> Self {
        let s = Settings { b: 2, m: 4, q: 2, pages: 3, nodes: 9, thresholds: vec![1; 64] };
        let mut t = Tables::filled_with(7, &s);
        assert_eq!(calls::open(&mut t, &s), 0);
        Both::of(&t.settings)
    }

    /// The same call on both: every word is the same then. Gives its number.
    fn call(&mut self, call: u64, x: u32, y: u32) -> u32 {
        let mut lent = Lent { settings: self.ours.get_mut(), nodes: &mut [], pages: &mut [], sketches: &mut [], working: &mut [] };
        let number = calls::lent_right(&mut lent, call, x, y);
        assert_eq!(number, self.plain.right(call, x, y), "call {call} of {x} {y}");
        assert!(self.words() == self.plain.settings, "call {call} of {x} {y}");
        number
    }

    /// Calls that are carried out.
    fn each(&mut self, call: u64, pairs: &[(u32, u32)]) {
        pairs.iter().for_each(|&(x, y)| assert_eq!(self.call(call, x, y), 0));
    }

    fn words(&self) -> &[u32] {
        self.ours.get()
    }

    fn entry(&self, reader: u32) -> u64 {
        entry(self.words(), reader)
    }
}

/// The bits of word `at` that a call may change: of a join or leave the membership and the reader's entry, of a grant or revoke the grant
/// and this class in the entries of the members.
fn may_change(settings: &[u32], call: u64, x: u32, y: u32, at: usize) -> u32 {
    let (row, column) = (x as usize, y as usize);
    let class = 1 << (y % 32);
    match (call == JOIN || call == LEAVE, at) {
        (true, _) if at == MEMBERS + row => 1 << y,
        (true, _) if at == ENTRIES + 2 * row || at == ENTRIES + 2 * row + 1 => u32::MAX,
        (false, _) if at == GRANTS + 2 * row + column / 32 => class,
        (false, ENTRIES..FREE) => {
            let (reader, half) = ((at - ENTRIES) / 2, (at - ENTRIES) % 2);
            if is_member(settings, reader as u32, x) && half == column / 32 { class } else { 0 }
        }
        _ => 0,
    }
}

/// No other bit has changed.
fn only_these(before: &[u32], after: &[u32], call: u64, x: u32, y: u32) -> bool {
    (0..before.len()).all(|at| (before[at] ^ after[at]) & !may_change(before, call, x, y, at) == 0)
}

#[test]
fn rights() {
    let mut random = Random::new(12);
    let mut numbers = [0u32; 16];
    for _ in 0..2_000 {
        let (s, mut t) = opened(&mut random);
        if random.below(12) == 0 {
            cut_short(&mut random, &mut t, &s, 1);
        }
        let mut both = Both::of(&t.settings);
        for _ in 0..40 {
            let (reader, group, class) = (near(&mut random, 0, 255), near(&mut random, 0, 31), near(&mut random, 0, 63));
            let call = random.below(4);
            let (x, y) = if call == JOIN || call == LEAVE { (reader, group) } else { (group, class) };
            let before = both.words().to_vec();
            let number = both.call(call, x, y);
            assert!(if number == 0 { only_these(&before, both.words(), call, x, y) } else { before == both.words() });
            numbers[number as usize] += 1;
        }
    }
    assert!([0, 5, 6, 7].iter().all(|&n| numbers[n] > 0), "{numbers:?}");
}

/// What a history of rights has to have had in it.
#[derive(Default, Debug)]
struct Seen {
    /// revokes that closed the class to two readers or more
    reaching: u32,
    /// revokes of a grant, with a member to whom the class stays open
    by_a_second_group: u32,
    /// leaves that closed something, and not all
    leaving_some: u32,
    /// joins that added to what was open
    adding: u32,
}

impl Seen {
    /// An accepted call, by the words before it and after.
    fn count(&mut self, before: &[u32], after: &[u32], call: u64, x: u32, y: u32) {
        let entries = |settings: &[u32]| (0..256).map(|reader| entry(settings, reader)).collect::<Vec<_>>();
        let (was, is) = (entries(before), entries(after));
        if call == JOIN || call == LEAVE {
            let (was, is) = (was[x as usize], is[x as usize]);
            self.adding += u32::from(was != 0 && is != was && is & was == was);
            self.leaving_some += u32::from(is != 0 && is != was && is & was == is);
        }
        if call == REVOKE && before[GRANTS..ENTRIES] != after[GRANTS..ENTRIES] {
            self.reaching += u32::from(was.iter().zip(&is).filter(|(was, is)| was != is).count() >= 2);
            let stays = |reader: u32| is_member(after, reader, x) && is[reader as usize] >> y & 1 == 1;
            self.by_a_second_group += u32::from((0..256).any(stays));
        }
    }
}

/// Histories of few and of many readers, groups and classes: behind every call all entries are what the records say.
#[test]
fn entries_stay_current() {
    let mut random = Random::new(15);
    let (mut seen, mut numbers) = (Seen::default(), [0u32; 8]);
    for _ in 0..400 {
        let mut both = Both::fresh();
        let limits = [[1, 3, 256], [1, 4, 32], [2, 8, 64]].map(|limits| limits[random.below(3) as usize]);
        for _ in 0..300 {
            let [reader, group, class] = limits.map(|limit| if random.below(40) == 0 { random.next() as u32 % 300 } else { random.below(limit) as u32 });
            // the tables fill up
            let call = [JOIN, JOIN, LEAVE, GRANT, GRANT, REVOKE][random.below(6) as usize];
            let (x, y) = if call == JOIN || call == LEAVE { (reader, group) } else { (group, class) };
            let before = both.words().to_vec();
            let number = both.call(call, x, y);
            assert!(stale(both.words()).is_empty(), "call {call} of {x} {y}");
            assert!(if number == 0 { only_these(&before, both.words(), call, x, y) } else { before == both.words() });
            numbers[number as usize] += 1;
            if number == 0 {
                seen.count(&before, both.words(), call, x, y);
            }
        }
    }
    assert!(numbers[0] > 50_000 && numbers[7] > 1_000, "{numbers:?}");
    assert!([seen.reaching, seen.by_a_second_group, seen.leaving_some, seen.adding].iter().all(|&n| n > 500), "{seen:?}");
}

/// Words with many flags, with half, and with few.
fn flags(random: &mut Random, kind: u64) -> u32 {
    let (x, y, z) = (random.next() as u32, random.next() as u32, random.next() as u32);
    match kind {
        0 => x | y,
        1 => x,
        _ => x & y & z,
    }
}

/// Records and entries of any kind, so that most entries are stale: what each call writes is the same.
#[test]
fn on_any_rights() {
    let mut random = Random::new(16);
    // calls that left a stale entry of the one reader or of a member, and that left none
    let mut left = [0u32; 2];
    for _ in 0..600 {
        let mut settings = Both::fresh().words().to_vec();
        let kinds = [random.below(3), random.below(3), random.below(3)];
        for (range, kind) in [MEMBERS..GRANTS, GRANTS..ENTRIES, ENTRIES..FREE].into_iter().zip(kinds) {
            settings[range].iter_mut().for_each(|word| *word = flags(&mut random, kind));
        }
        let mut both = Both::of(&settings);
        for _ in 0..30 {
            let call = random.below(4);
            let (x, y) = if call == JOIN || call == LEAVE { (random.below(256), random.below(32)) } else { (random.below(32), random.below(64)) };
            let (x, y) = (x as u32, y as u32);
            let before = both.words().to_vec();
            assert_eq!(both.call(call, x, y), 0);
            assert!(only_these(&before, both.words(), call, x, y));
            let stale = stale(both.words());
            let touched = |reader: &u32| if call == JOIN || call == LEAVE { *reader == x } else { is_member(both.words(), *reader, x) };
            let stays = stale.iter().any(touched);
            assert!(!stays || call == GRANT || call == REVOKE, "a join or leave left its reader's entry stale");
            left[usize::from(stays)] += 1;
        }
    }
    assert!(left.iter().all(|&n| n > 5_000), "{left:?}");
}

/// The places of docs/LAYOUT.md, by their numbers.
#[test]
fn where_the_flags_stand() {
    let mut both = Both::fresh();
    let fresh = both.words().to_vec();
    assert_eq!((fresh.len(), fresh[0], fresh[902]), (903, 0x5644_0004, 3));
    assert!(fresh[70..902].iter().all(|&word| word == 0));
    let calls = [(JOIN, 3, 5), (JOIN, 255, 31), (GRANT, 5, 0), (GRANT, 5, 40), (GRANT, 31, 63)];
    calls.into_iter().for_each(|(call, x, y)| both.each(call, &[(x, y)]));
    let memberships = [(73, 1 << 5), (325, 1 << 31)];
    let grants = [(336, 1), (337, 1 << 8), (389, 1 << 31)];
    let entries = [(396, 1), (397, 1 << 8), (901, 1 << 31)];
    let mut want = fresh.clone();
    memberships.into_iter().chain(grants).chain(entries).for_each(|(at, word)| want[at] = word);
    assert!(both.words() == want);
    let calls = [(LEAVE, 3, 5), (REVOKE, 31, 63), (LEAVE, 255, 31), (REVOKE, 5, 0), (REVOKE, 5, 40)];
    calls.into_iter().for_each(|(call, x, y)| both.each(call, &[(x, y)]));
    assert!(both.words() == fresh);
}

/// A set of classes.
fn set(classes: &[u32]) -> u64 {
    classes.iter().fold(0, |set, class| set | 1 << class)
}

#[test]
fn a_grant_and_a_revoke_reach_all_members() {
    let mut both = Both::fresh();
    for reader in 0..256 {
        assert_eq!(both.call(JOIN, reader, 31), 0);
    }
    for class in [0, 31, 32, 63] {
        assert_eq!(both.call(GRANT, 31, class), 0);
        assert!((0..256).all(|reader| both.entry(reader) == set(&[class])));
        // those that leave lose it, the others do not
        both.each(LEAVE, &[(0, 31), (100, 31), (255, 31)]);
        assert!((0..256).all(|reader| both.entry(reader) == if [0, 100, 255].contains(&reader) { 0 } else { set(&[class]) }));
        both.each(JOIN, &[(0, 31), (100, 31), (255, 31)]);
        assert_eq!(both.call(REVOKE, 31, class), 0);
        assert!((0..256).all(|reader| both.entry(reader) == 0));
    }
}

/// Every other reader has each class by a second group too, reader 7 by all 32.
#[test]
fn a_class_stays_open_by_a_second_group() {
    let mut both = Both::fresh();
    for reader in 0..256 {
        assert_eq!(both.call(JOIN, reader, 4), 0);
        if reader % 2 == 0 {
            assert_eq!(both.call(JOIN, reader, reader % 31 + if reader % 31 < 4 { 0 } else { 1 }), 0);
        }
    }
    (0..32).for_each(|group| both.each(JOIN, &[(7, group)]));
    for class in [5, 40] {
        (0..32).for_each(|group| both.each(GRANT, &[(group, class)]));
        assert_eq!(both.call(REVOKE, 4, class), 0);
        assert!((0..256).all(|reader| both.entry(reader) >> class & 1 == u64::from(reader % 2 == 0 || reader == 7)));
        // the last of the 32 groups
        (0..31).for_each(|group| both.each(REVOKE, &[(group, class)]));
        assert_eq!(both.entry(7) >> class & 1, 1);
        assert_eq!(both.call(REVOKE, 31, class), 0);
        assert!((0..256).all(|reader| both.entry(reader) >> class & 1 == 0));
    }
}

#[test]
fn one_of_two_groups() {
    let mut both = Both::fresh();
    both.each(GRANT, &[(1, 0), (1, 33), (1, 50), (2, 33), (2, 63)]);
    let mut is_open = |calls: &[(u64, u32, u32)], classes: &[u32]| {
        calls.iter().for_each(|&(call, x, y)| assert_eq!(both.call(call, x, y), 0));
        assert_eq!(both.entry(9), set(classes));
        assert_eq!((both.entry(8), both.entry(10)), (0, 0));
    };
    is_open(&[(JOIN, 9, 1)], &[0, 33, 50]);
    // a join adds, and the second time changes nothing
    is_open(&[(JOIN, 9, 2)], &[0, 33, 50, 63]);
    is_open(&[(JOIN, 9, 2)], &[0, 33, 50, 63]);
    // a leave takes what the other group does not have
    is_open(&[(LEAVE, 9, 1)], &[33, 63]);
    is_open(&[(LEAVE, 9, 1)], &[33, 63]);
    is_open(&[(JOIN, 9, 1), (LEAVE, 9, 2)], &[0, 33, 50]);
    // a group that he is not in, one without grants, and a revoke for others
    is_open(&[(LEAVE, 9, 30), (JOIN, 9, 31), (REVOKE, 2, 33)], &[0, 33, 50]);
    // a grant behind the join, a revoke, and one of what was not granted
    is_open(&[(GRANT, 31, 1), (REVOKE, 1, 0), (REVOKE, 1, 7)], &[1, 33, 50]);
    is_open(&[(LEAVE, 9, 31), (LEAVE, 9, 1)], &[]);
}

/// A stale entry: what a call does not write stays stale.
#[test]
fn what_stays_stale() {
    let mut settings = Both::fresh().words().to_vec();
    // readers 3 and 4 have classes 0 to 3 and 32 to 35, which no record says; reader 3 is in group 1, which is granted class 2 and 40
    settings[ENTRIES + 6..ENTRIES + 10].fill(15);
    (settings[MEMBERS + 3], settings[GRANTS + 2], settings[GRANTS + 3]) = (1 << 1, 1 << 2, 1 << 8);
    let given = set(&[0, 1, 2, 3, 32, 33, 34, 35]);
    let becomes = |calls: &[(u64, u32, u32)], want: [u64; 2]| {
        let mut both = Both::of(&settings);
        assert_eq!([both.entry(3), both.entry(4)], [given; 2]);
        calls.iter().for_each(|&(call, x, y)| assert_eq!(both.call(call, x, y), 0));
        assert_eq!([both.entry(3), both.entry(4)], want, "{calls:?}");
    };
    // this class alone, of members alone, as the records say
    becomes(&[(GRANT, 1, 50)], [given | set(&[50]), given]);
    becomes(&[(GRANT, 1, 40)], [given | set(&[40]), given]);
    becomes(&[(REVOKE, 1, 2)], [given & !set(&[2]), given]);
    becomes(&[(REVOKE, 1, 33)], [given & !set(&[33]), given]);
    becomes(&[(REVOKE, 1, 40)], [given, given]);
    becomes(&[(GRANT, 2, 50), (REVOKE, 2, 2)], [given, given]);
    // the whole entry
    becomes(&[(JOIN, 3, 1)], [set(&[2, 40]), given]);
    becomes(&[(JOIN, 3, 2)], [set(&[2, 40]), given]);
    becomes(&[(LEAVE, 3, 1)], [0, given]);
    becomes(&[(LEAVE, 4, 9)], [given, 0]);
    becomes(&[(JOIN, 4, 1)], [given, set(&[2, 40])]);
}

#[test]
fn showing() {
    let mut random = Random::new(13);
    let mut numbers = [0u32; 16];
    for _ in 0..4_000 {
        let (s, mut t) = opened(&mut random);
        if random.below(4) == 0 {
            cut_short(&mut random, &mut t, &s, 4);
        }
        for _ in 0..40 {
            let (reader, page) = (near(&mut random, 0, 255), near(&mut random, 0, s.pages - 1));
            let want = t.show(reader, page);
            let got = calls::show(&mut t, reader, page);
            assert_eq!(got, want, "reader {reader} page {page}");
            numbers[want.err().unwrap_or(0) as usize] += 1;
        }
    }
    assert!([0, 5, 6, 7, 8, 9].iter().all(|&n| numbers[n] > 0), "{numbers:?}");
}

#[test]
fn table_lengths() {
    let mut random = Random::new(14);
    let mut refused = 0;
    for _ in 0..100_000 {
        let mut s = settings(&mut random);
        s.pages = near(&mut random, 1, 65_535);
        s.nodes = near(&mut random, s.q.clamp(1, 8), 262_144);
        let got = calls::lengths(&s);
        if s.within_limits() {
            assert_eq!(got, (0, s.lengths()), "{s:?}");
        } else {
            refused += 1;
            assert_eq!(got, (4, Lengths::default()), "{s:?}");
        }
    }
    assert!(refused > 10_000 && refused < 90_000, "{refused}");
}
