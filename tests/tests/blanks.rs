//! Blank pages: an add is refused by 15; those that a store has from before are listed, shown and dropped, and the check says yes.
use vetchdawn_tests::calls::{self, Given};
use vetchdawn_tests::lists::Lists;
use vetchdawn_tests::random::Random;
use vetchdawn_tests::sound::sound;
use vetchdawn_tests::stores::{small_settings, Sketches};
use vetchdawn_tests::tables::{Settings, Tables, FREE};
use vetchdawn_tests::trees::{whole, Index};
use vetchdawn_tests::written::written;

/// An add that is refused with this number, and changes no table.
fn refused(t: &mut Tables, page: u32, class: u32, sketch: &[u8], number: u32) {
    let before = t.clone();
    assert_eq!(calls::add(&mut t.lend(), page, class, sketch), number);
    assert!(*t == before, "a refusal changed a table");
}

#[test]
fn every_place_is_looked_at() {
    for b in 1..=8 {
        for m in [1, 2, 3, 7, 8, 15, 16, 17, 31, 32, 33, 63, 64] {
            let s = Settings { b, m, q: 1, pages: 65, nodes: 1, thresholds: vec![65_535; 64] };
            let mut t = Tables::filled_with(0, &s);
            assert_eq!(calls::open(&mut t, &s), 0);
            refused(&mut t, 0, 3, &vec![0; m as usize], 15);
            for at in 0..m as usize {
                let mut x = vec![0; m as usize];
                x[at] = 1 << (b - 1);
                assert_eq!(calls::add(&mut t.lend(), at as u32, 3, &x), 0, "b {b}, m {m}, place {at}");
            }
        }
    }
}

#[test]
fn in_its_place_among_the_questions() {
    // one page fills the only node there is; a second one would split it
    let s = Settings { b: 2, m: 4, q: 1, pages: 8, nodes: 1, thresholds: vec![1; 64] };
    let mut t = Tables::filled_with(0, &s);
    assert_eq!(calls::open(&mut t, &s), 0);
    assert_eq!(calls::add(&mut t.lend(), 5, 3, &[0, 0, 0, 1]), 0);
    let zeros = [0; 4];
    refused(&mut t, 0, 64, &zeros, 7);
    refused(&mut t, 8, 3, &zeros, 8);
    refused(&mut t, 5, 3, &zeros, 9);
    refused(&mut t, 0, 3, &zeros[..3], 10);
    refused(&mut t, 0, 3, &[0; 5], 10);
    refused(&mut t, 0, 3, &[0, 0, 0, 4], 11);
    refused(&mut t, 0, 3, &zeros, 15);
    refused(&mut t, 0, 3, &[0, 0, 0, 2], 12);
    // the free link leads outside
    t.settings[FREE] = 9;
    refused(&mut t, 0, 3, &[0, 0, 0, 2], 14);
    refused(&mut t, 0, 3, &zeros, 15);
    t.settings[0] = 0;
    refused(&mut t, 0, 3, &zeros, 6);
}

/// A store from before question 15: about a third of its pages are blank.
fn earlier_store(random: &mut Random, s: &Settings, sketches: &Sketches) -> Index {
    let mut plain = Index::open(s.clone());
    for _ in 0..40 {
        let (page, class) = (random.below(u64::from(s.pages)) as u32, random.below(8) as u32);
        if random.below(5) == 0 {
            plain.drop(page);
        } else if !plain.rows.contains_key(&page) {
            let x = if random.below(3) == 0 { vec![0; s.m as usize] } else { sketches.near(random, 3) };
            plain.put(page, class, &x);
        }
    }
    for _ in 0..random.below(12) {
        plain.join(random.below(3) as u32, random.below(4) as u32);
        plain.grant(random.below(4) as u32, random.below(8) as u32);
    }
    plain
}

fn is_blank(plain: &Index, page: u32) -> bool {
    plain.rows.get(&page).is_some_and(|row| row.sketch.iter().all(|&symbol| symbol == 0))
}

#[test]
fn stored_ones_stay() {
    let mut random = Random::new(71);
    let mut lists = Lists::new(50);
    let (mut listed, mut shown, mut dropped, mut blanks_refused) = (0, 0, 0, 0);
    for _ in 0..1_500 {
        let s = small_settings(&mut random);
        let sketches = Sketches::new(&mut random, s.b, s.m, 3);
        let mut plain = earlier_store(&mut random, &s, &sketches);
        let mut t = written(&plain);
        assert!(sound(&t, &s) && calls::check(&mut t.lend()) == (0, true), "{s:?}");
        for _ in 0..30 {
            let (reader, page) = (random.below(3) as u32, random.below(u64::from(s.pages)) as u32);
            let x = if random.below(2) == 0 { vec![0; s.m as usize] } else { sketches.near(&mut random, 3) };
            match random.below(5) {
                0 => {
                    dropped += u32::from(is_blank(&plain, page));
                    assert_eq!(calls::drop(&mut t.lend(), page), plain.drop(page));
                }
                1 => {
                    let number = calls::add(&mut t.lend(), page, 3, &x);
                    assert_eq!(number, plain.add(page, 3, &x));
                    blanks_refused += u32::from(number == 15);
                }
                2 => {
                    let row = plain.rows.get(&page).filter(|row| plain.opens(reader, row.class));
                    let m = s.m as usize;
                    assert_eq!(calls::show(&mut t, reader, page), row.map(|_| (page as usize * m, m)).ok_or(9));
                    shown += u32::from(row.is_some() && is_blank(&plain, page));
                }
                _ => {
                    let radius = random.below(6) as u32;
                    let want = plain.search(reader, radius, &x).unwrap();
                    let found = lists.search(&mut t.lend(), reader, radius, &x, [want.len(); 2]);
                    listed += want.iter().filter(|hit| is_blank(&plain, hit.page)).count();
                    assert_eq!(found, (Given { number: 0, value: want.len() as u32 }, want), "{s:?}");
                }
            }
            assert_eq!(whole(&t, &s), plain.trees);
        }
        assert!(sound(&t, &s) && calls::check(&mut t.lend()) == (0, true), "{s:?}");
    }
    assert!(listed > 1_000 && shown > 100 && dropped > 500 && blanks_refused > 1_000, "{listed} {shown} {dropped} {blanks_refused}");
}
