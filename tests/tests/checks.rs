//! The check through C: on stores damaged one word at a time it says no exactly where an independent checker does.
use vetchdawn_tests::calls;
use vetchdawn_tests::guard::GuardedTables;
use vetchdawn_tests::random::Random;
use vetchdawn_tests::sound::sound;
use vetchdawn_tests::stores::{cut_short, damage_right, damaged, filled, small_settings};
use vetchdawn_tests::tables::{Settings, Tables, FREE};

/// The check's answer; the needed part of the working table is 0 then, and nothing else changed.
fn checked(lent: &mut GuardedTables, t: &Tables, s: &Settings) -> bool {
    let (number, yes) = calls::check(&mut lent.lend());
    assert_eq!(number, 0);
    let after = lent.tables();
    let needed = s.lengths().working;
    assert!(after.working[..needed].iter().all(|&w| w == 0) && after.working[needed..] == t.working[needed..]);
    assert!((&after.settings, &after.nodes, &after.pages, &after.sketches) == (&t.settings, &t.nodes, &t.pages, &t.sketches));
    yes
}

#[test]
fn one_word_at_a_time() {
    let mut random = Random::new(51);
    let (mut yes, mut no) = (0, 0);
    for _ in 0..400 {
        let s = small_settings(&mut random);
        let (t, _, _) = filled(&mut random, &s, 50);
        let mut lent = GuardedTables::new(&t);
        assert!(sound(&t, &s) && checked(&mut lent, &t, &s), "{s:?}");
        for _ in 0..60 {
            let mut bad = t.clone();
            one_word(&mut random, &mut bad, &s);
            lent.fill(&bad);
            let want = sound(&bad, &s);
            assert_eq!(checked(&mut lent, &bad, &s), want, "{s:?}");
            if want {
                yes += 1;
            } else {
                no += 1;
            }
        }
    }
    assert!(yes > 1_000 && no > 5_000, "{yes} {no}");
}

/// Another number in one word, or another symbol.
fn one_word(random: &mut Random, t: &mut Tables, s: &Settings) {
    let (n, p) = (u64::from(s.nodes), u64::from(s.pages));
    let other = |random: &mut Random, w: u32| match random.below(6) {
        0 => random.next() as u32,
        1 => w ^ (1 << random.below(32)),
        2 => w.wrapping_add(1),
        3 => w.wrapping_sub(1),
        _ => random.below(n.max(p) + 2) as u32,
    };
    match random.below(11) {
        0 => t.settings[FREE] = other(random, t.settings[FREE]),
        1..=4 => {
            let at = match random.below(3) {
                0 => random.below(n),
                1 => n + random.below(n),
                _ => 2 * n + random.below(8 * n),
            } as usize;
            t.nodes[at] = other(random, t.nodes[at]);
        }
        5 | 6 => {
            let at = random.below(s.lengths().pages as u64) as usize;
            t.pages[at] = other(random, t.pages[at]);
        }
        // a signature
        7 => {
            let at = (p + random.below(p)) as usize;
            t.pages[at] = other(random, t.pages[at]);
        }
        8 | 9 => damage_right(random, &mut t.settings),
        _ => {
            let at = random.below(s.lengths().sketches as u64) as usize;
            t.sketches[at] = random.next() as u8;
        }
    }
}

#[test]
fn damaged_tables() {
    let mut random = Random::new(52);
    for round in 0..2_000 {
        let s = small_settings(&mut random);
        let (mut t, _) = damaged(&mut random, &s, round);
        t.cut(&s.lengths());
        let mut lent = GuardedTables::new(&t);
        assert_eq!(checked(&mut lent, &t, &s), sound(&t, &s), "{s:?}");
    }
}

#[test]
fn short_tables() {
    let mut random = Random::new(53);
    for _ in 0..500 {
        let s = small_settings(&mut random);
        let (mut t, _, _) = filled(&mut random, &s, 10);
        let number = cut_short(&mut random, &mut t, &s, 5);
        let before = t.clone();
        assert_eq!(calls::check(&mut t.lend()), (number, false));
        assert!(t == before);
    }
}
