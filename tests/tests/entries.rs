//! The entries of readers: lists and showing go by them, on stores that are sound and on others; the check says no where one differs from
//! the records; tables of earlier layouts show no opening.
use vetchdawn_tests::calls::{self, Given};
use vetchdawn_tests::guard::GuardedTables;
use vetchdawn_tests::lists::Lists;
use vetchdawn_tests::plain::{distance, nearest_first, Hit};
use vetchdawn_tests::random::Random;
use vetchdawn_tests::sound::sound;
use vetchdawn_tests::stores::{filled, opened, small_settings, Sketches};
use vetchdawn_tests::tables::{recorded, Settings, Tables, EARLIER_MARKS, ENTRIES, FREE, GRANTS, MARK, MEMBERS, SETTINGS};
use vetchdawn_tests::trees::Index;

/// What a search lists by the rows, where these classes are open.
fn wanted(plain: &Index, open: u64, radius: u32, query: &[u8]) -> Vec<Hit> {
    let rows = plain.rows.iter().filter(|(_, row)| open >> row.class & 1 == 1);
    let hits = rows.map(|(&page, row)| Hit { page, distance: distance(&row.sketch, query) });
    nearest_first(hits.filter(|hit| hit.distance <= radius).collect())
}

/// Searches list, and showing shows, just the pages of these classes to the reader. Gives how many were listed at radius 64.
fn goes_by(lent: &mut GuardedTables, plain: &Index, reader: u32, open: u64, queries: &[Vec<u8>]) -> usize {
    let s = &plain.settings;
    let (mut lists, mut listed) = (Lists::new(s.pages as usize), 0);
    for (radius, query) in [0, 1, 3, 64].into_iter().flat_map(|radius| queries.iter().map(move |query| (radius, query))) {
        let want = wanted(plain, open, radius, query);
        listed += if radius == 64 { want.len() } else { 0 };
        let found = lists.search(&mut lent.lend(), reader, radius, query, [s.pages as usize; 2]);
        assert_eq!(found, (Given { number: 0, value: want.len() as u32 }, want), "reader {reader} {open:x} {s:?}");
    }
    for page in 0..s.pages {
        let row = plain.rows.get(&page).filter(|row| open >> row.class & 1 == 1);
        let want = row.map(|_| ((page * s.m) as usize, s.m as usize)).ok_or(9);
        assert_eq!(calls::lent_show(&mut lent.lend(), reader, page), want, "reader {reader} {open:x} {s:?}");
    }
    listed
}

/// The classes that the pairs of the index open to a reader.
fn by_pairs(plain: &Index, reader: u32) -> u64 {
    (0..64).filter(|&class| plain.opens(reader, class)).fold(0, |open, class| open | 1 << class)
}

fn some_queries(random: &mut Random, sketches: &Sketches) -> Vec<Vec<u8>> {
    (0..2).map(|_| sketches.near(random, 4)).collect()
}

/// Of 32 groups so many at random.
fn groups(random: &mut Random, count: usize) -> Vec<u32> {
    let mut all: Vec<u32> = (0..32).collect();
    (0..count).map(|_| all.swap_remove(random.below(all.len() as u64) as usize)).collect()
}

/// Readers, each in so many of the 32 groups.
const IN_GROUPS: [(u32, usize); 4] = [(0, 0), (77, 1), (254, 2), (255, 32)];

/// Three classes for each of 32 groups, and readers in none of them, in one, in two and in all; then calls that change it.
#[test]
fn in_no_group_and_in_all() {
    let mut random = Random::new(91);
    let (mut listed, mut changed) = ([0; 4], 0);
    for _ in 0..250 {
        let s = small_settings(&mut random);
        let (mut t, mut plain) = opened(&mut random, &s);
        let sketches = Sketches::new(&mut random, s.b, s.m, 3);
        for page in 0..s.pages {
            let (class, x) = (random.below(64) as u32, sketches.near(&mut random, 4));
            assert_eq!(calls::add(&mut t.lend(), page, class, &x), plain.add(page, class, &x));
        }
        t.cut(&s.lengths());
        let mut lent = GuardedTables::new(&t);
        let right = |lent: &mut GuardedTables, plain: &mut Index, call: u64, x: u32, y: u32| {
            let want = [Index::join, Index::leave, Index::grant, Index::revoke][call as usize](plain, x, y);
            assert_eq!(calls::lent_right(&mut lent.lend(), call, x, y), want);
        };
        for (reader, count) in IN_GROUPS {
            groups(&mut random, count).into_iter().for_each(|group| right(&mut lent, &mut plain, 0, reader, group));
        }
        for group in (0..32).flat_map(|group| [group; 3]) {
            right(&mut lent, &mut plain, 2, group, random.below(64) as u32);
        }
        for (i, (reader, _)) in IN_GROUPS.into_iter().enumerate() {
            let queries = some_queries(&mut random, &sketches);
            let before = by_pairs(&plain, reader);
            listed[i] += goes_by(&mut lent, &plain, reader, before, &queries);
            // a leave or join of his, and some revokes
            right(&mut lent, &mut plain, random.below(2), reader, random.below(32) as u32);
            for _ in 0..6 {
                right(&mut lent, &mut plain, 3, random.below(32) as u32, random.below(64) as u32);
            }
            let after = by_pairs(&plain, reader);
            goes_by(&mut lent, &plain, reader, after, &queries);
            changed += usize::from(before != after);
        }
        assert!(sound(&lent.tables(), &s) && calls::check(&mut lent.lend()) == (0, true), "{s:?}");
    }
    assert!(listed[0] == 0 && listed[1] > 200 && listed[2] > listed[1] && listed[3] > 4 * listed[2], "{listed:?}");
    assert!(changed > 250, "{changed}");
}

fn write_entry(t: &mut Tables, reader: u32, open: u64) {
    let at = ENTRIES + 2 * reader as usize;
    (t.settings[at], t.settings[at + 1]) = (open as u32, (open >> 32) as u32);
}

/// Entries that say more than the records, less, or anything; and records that say anything beside entries as they were. In half of
/// the stores those of all other readers say anything too.
#[test]
fn by_stale_entries() {
    let mut random = Random::new(92);
    // pages that only the records open, and that only the entry does
    let (mut left_out, mut let_in, mut unsound) = (0, 0, 0);
    for round in 0..600 {
        let s = small_settings(&mut random);
        let (mut t, plain, sketches) = filled(&mut random, &s, 60);
        t.cut(&s.lengths());
        let readers = [0, 1, 2, 255];
        let mut open = readers.map(|reader| by_pairs(&plain, reader));
        if round % 8 > 3 {
            t.settings[ENTRIES..FREE].iter_mut().for_each(|word| *word = random.next() as u32);
        }
        if round % 4 == 3 {
            t.settings[MEMBERS..ENTRIES].iter_mut().for_each(|word| *word = random.next() as u32);
        }
        for (reader, open) in readers.into_iter().zip(&mut open) {
            *open = match round % 4 {
                0 => *open | random.next() & random.next(),
                1 => *open & random.next(),
                2 => random.next(),
                _ => *open,
            };
            write_entry(&mut t, reader, *open);
        }
        let mut lent = GuardedTables::new(&t);
        for (reader, open) in readers.into_iter().zip(open) {
            goes_by(&mut lent, &plain, reader, open, &some_queries(&mut random, &sketches));
            let recorded = recorded(&t.settings, reader);
            let pages = |set: u64| plain.rows.values().filter(|row| set >> row.class & 1 == 1).count();
            left_out += pages(recorded & !open);
            let_in += pages(open & !recorded);
        }
        let want = sound(&t, &s);
        assert_eq!(calls::check(&mut lent.lend()), (0, want), "{s:?}");
        unsound += u32::from(!want);
    }
    assert!(left_out > 1_000 && let_in > 1_000 && unsound > 400, "{left_out} {let_in} {unsound}");
}

/// Classes from 64 on are open to no one, whatever stands in the words behind an entry.
#[test]
fn no_entry_opens_a_class_above_63() {
    let s = Settings { b: 2, m: 4, q: 2, pages: 12, nodes: 40, thresholds: vec![8; 64] };
    let mut t = Tables::filled_with(0, &s);
    assert_eq!(calls::open(&mut t, &s), 0);
    let query = [1, 2, 3, 0];
    (0..12).for_each(|page| assert_eq!(calls::add(&mut t.lend(), page, 63, &query), 0));
    t.settings[ENTRIES..FREE].fill(u32::MAX);
    let words = [65, 66, 96, 97, 128, 129, 160, 0x4001, 0x8000_0000, u32::MAX - 63, u32::MAX];
    t.pages[1..12].copy_from_slice(&words);
    let mut lent = GuardedTables::new(&t);
    let mut lists = Lists::new(12);
    for reader in 0..256 {
        let list = vec![Hit { page: 0, distance: 0 }];
        assert_eq!(lists.search(&mut lent.lend(), reader, 0, &query, [12; 2]), (Given { number: 0, value: 1 }, list));
        assert_eq!(calls::lent_show(&mut lent.lend(), reader, 0), Ok((0, 4)));
        assert!((1..12).all(|page| calls::lent_show(&mut lent.lend(), reader, page) == Err(9)));
    }
}

/// A small store. Groups 0 to 3 have members and grants, some classes granted to two of them; group 6 has members and no grants, group 7
/// grants and no members.
fn with_rights(random: &mut Random) -> (Tables, Index) {
    let s = small_settings(random);
    let (mut t, mut plain, _) = filled(random, &s, 30);
    t.cut(&s.lengths());
    let mut join = |reader: u32, group: u32| assert_eq!((calls::join(&mut t, reader, group), plain.join(reader, group)), (0, 0));
    for reader in [0, 3, 100, 255] {
        join(reader, random.below(4) as u32);
        join(reader, random.below(4) as u32);
        join(reader, 6);
    }
    let mut grant = |group: u32, class: u32| assert_eq!((calls::grant(&mut t, group, class), plain.grant(group, class)), (0, 0));
    for _ in 0..12 {
        let class = random.below(64) as u32;
        grant(random.below(4) as u32, class);
        grant(random.below(4) as u32, class);
        grant(7, random.below(64) as u32);
    }
    (t, plain)
}

fn toggle(pairs: &mut std::collections::BTreeSet<(u32, u32)>, pair: (u32, u32)) {
    if !pairs.remove(&pair) {
        pairs.insert(pair);
    }
}

/// With one pair more or less, a membership or a grant: is the same open to everyone?
fn is_the_same(plain: &Index, at: usize, bit: u32) -> bool {
    let mut other = plain.clone();
    if at < GRANTS {
        let reader = (at - MEMBERS) as u32;
        toggle(&mut other.members, (reader, bit));
        return by_pairs(&other, reader) == by_pairs(plain, reader);
    }
    let (group, class) = ((at - GRANTS) as u32 / 2, (at - GRANTS) as u32 % 2 * 32 + bit);
    toggle(&mut other.grants, (group, class));
    (0..256).all(|reader| other.opens(reader, class) == plain.opens(reader, class))
}

/// The check's answer on the store with one bit of a settings word changed, which must be that of the plain checker.
fn checked(lent: &mut GuardedTables, t: &mut Tables, s: &Settings, at: usize, bit: u32) -> bool {
    t.settings[at] ^= 1 << bit;
    lent.settings.get_mut()[at] ^= 1 << bit;
    let (number, yes) = calls::check(&mut lent.lend());
    assert_eq!((number, yes), (0, sound(t, s)), "bit {bit} of word {at}");
    assert!(lent.settings.get() == t.settings, "a check changed the settings");
    t.settings[at] ^= 1 << bit;
    lent.settings.get_mut()[at] ^= 1 << bit;
    yes
}

/// Each bit of each word of the entries and of the records.
#[test]
fn every_bit_of_the_rights() {
    let mut random = Random::new(93);
    // flags of memberships and of grants, without which and with which the entries are what the records say
    let (mut memberships, mut grants) = ([0; 2], [0; 2]);
    for _ in 0..3 {
        let (mut t, plain) = with_rights(&mut random);
        let mut lent = GuardedTables::new(&t);
        assert!(sound(&t, &plain.settings) && calls::check(&mut lent.lend()) == (0, true));
        for (at, bit) in (MEMBERS..FREE).flat_map(|at| (0..32).map(move |bit| (at, bit))) {
            let yes = checked(&mut lent, &mut t, &plain.settings, at, bit);
            assert_eq!(yes, at < ENTRIES && is_the_same(&plain, at, bit), "bit {bit} of word {at}");
            if at < GRANTS {
                memberships[usize::from(yes)] += 1;
            } else if at < ENTRIES {
                grants[usize::from(yes)] += 1;
            }
        }
    }
    assert!(memberships[0] > 1_000 && memberships[1] > 1_000, "{memberships:?}");
    assert!(grants[0] > 200 && grants[1] > 200, "{grants:?}");
}

/// One bit of each word again, of more stores.
#[test]
fn a_bit_of_each_word_of_the_rights() {
    let mut random = Random::new(94);
    let mut answers = [0; 2];
    for _ in 0..40 {
        let (mut t, plain) = with_rights(&mut random);
        let mut lent = GuardedTables::new(&t);
        for at in MEMBERS..FREE {
            let bit = random.below(32) as u32;
            answers[usize::from(checked(&mut lent, &mut t, &plain.settings, at, bit))] += 1;
        }
    }
    assert!(answers.iter().all(|&n| n > 5_000), "{answers:?}");
}

/// Records alone, so that no entry is stale: the check says yes.
#[test]
fn records_that_open_nothing_more() {
    let s = Settings { b: 2, m: 4, q: 2, pages: 3, nodes: 9, thresholds: vec![1; 64] };
    let mut t = Tables::filled_with(0, &s);
    assert_eq!((calls::open(&mut t, &s), calls::join(&mut t, 9, 1), calls::grant(&mut t, 1, 40)), (0, 0, 0));
    let says = |words: &[(usize, u32)]| {
        let mut other = t.clone();
        words.iter().for_each(|&(at, word)| other.settings[at] |= word);
        let (number, yes) = calls::check(&mut other.lend());
        assert_eq!((number, yes), (0, sound(&other, &s)));
        yes
    };
    assert!(says(&[]));
    // a membership in a group without grants, a grant to a group without members, and one that he has by another group
    assert!(says(&[(MEMBERS + 9, 1 << 2), (MEMBERS, 1 << 31)]));
    assert!(says(&[(GRANTS + 2 * 5, 1)]));
    assert!(says(&[(MEMBERS + 9, 1 << 2), (GRANTS + 2 * 2 + 1, 1 << 8)]));
    // one that opens a class
    assert!(!says(&[(MEMBERS + 8, 1 << 1)]));
    assert!(!says(&[(GRANTS + 2, 1)]));
    assert!(!says(&[(MEMBERS + 9, 1 << 2), (GRANTS + 2 * 2 + 1, 1 << 9)]));
    // with the entry that says so it is sound again
    assert!(says(&[(MEMBERS + 8, 1 << 1), (ENTRIES + 2 * 8 + 1, 1 << 8)]));
    // entries of a reader in no group, of the first and the last word
    assert!(!says(&[(ENTRIES, 1)]));
    assert!(!says(&[(FREE - 1, 1 << 31)]));
}

/// Every call but an opening, refused with this number; nothing changes.
fn refused_by_all(t: &Tables, number: u32) {
    let mut lent = GuardedTables::new(t);
    for (x, y) in [(0, 0), (5, 1), (999, 999)] {
        (0..4).for_each(|call| assert_eq!(calls::lent_right(&mut lent.lend(), call, x, y), number));
        assert_eq!(calls::lent_show(&mut lent.lend(), x, y), Err(number));
        assert_eq!(calls::add(&mut lent.lend(), x, y, &[1, 2, 3, 0]), number);
        assert_eq!(calls::drop(&mut lent.lend(), x), number);
        let given = Lists::new(9).search(&mut lent.lend(), x, y, &[1, 2, 3, 0], [9; 2]);
        assert_eq!(given, (Given { number, value: 0 }, vec![]));
    }
    assert_eq!(calls::check(&mut lent.lend()), (number, false));
    assert!(lent.tables() == *t, "a refusal changed a table");
}

/// Tables as layouts 1 and 2 had them: 391 words of settings, the free link behind the records.
fn without_entries(t: &Tables, mark: u32) -> Tables {
    let mut settings = [&t.settings[..ENTRIES], &t.settings[FREE..=FREE]].concat();
    settings[0] = mark;
    Tables { settings, ..t.clone() }
}

#[test]
fn earlier_layouts_show_no_opening() {
    let s = Settings { b: 2, m: 4, q: 2, pages: 8, nodes: 40, thresholds: vec![1; 64] };
    let mut t = Tables::filled_with(0, &s);
    assert_eq!((calls::open(&mut t, &s), calls::join(&mut t, 5, 1), calls::grant(&mut t, 1, 3)), (0, 0, 0));
    (0..4).for_each(|page| assert_eq!(calls::add(&mut t.lend(), page, 3, &[1, 2, 3, page as u8]), 0));
    assert_eq!((t.settings.len(), t.settings[0]), (SETTINGS, MARK));
    for mark in EARLIER_MARKS {
        // the mark alone
        let mut other = t.clone();
        other.settings[0] = mark;
        refused_by_all(&other, 6);
        // an opening makes them tables of this layout
        assert_eq!((calls::open(&mut other, &s), other.settings[0]), (0, MARK));
        assert_eq!(calls::check(&mut other.lend()), (0, true));
    }
    for mark in [EARLIER_MARKS[0], EARLIER_MARKS[1]] {
        // as they were, too short now; and in a longer table, with anything behind
        let mut other = without_entries(&t, mark);
        refused_by_all(&other, 5);
        for (length, word) in [(SETTINGS, 0), (SETTINGS, u32::MAX), (1_024, 0), (1_024, 7)] {
            other.settings.resize(ENTRIES + 1, 0);
            other.settings.resize(length, word);
            refused_by_all(&other, 6);
        }
        assert_eq!((calls::open(&mut other, &s), calls::check(&mut other.lend())), (0, (0, true)));
    }
}
