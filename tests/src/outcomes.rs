//! What an add or a drop may give, and which words it may change, whatever the tables hold (document 01, question 14; docs/OPERATING.md).
use crate::plain::signature;
use crate::tables::{Settings, Tables, FREE};

/// What 7 to 11 and 15 say of an add, and 8 and 9 of a drop, whatever the tries hold.
fn early(t: &Tables, s: &Settings, page: u32, added: Option<(u32, &[u8])>) -> u32 {
    if added.is_some_and(|(class, _)| class >= 64) {
        return 7;
    }
    if page >= s.pages {
        return 8;
    }
    if (t.pages[page as usize] != 0) == added.is_some() {
        return 9;
    }
    match added {
        Some((_, x)) if x.len() != s.m as usize => 10,
        Some((_, x)) if x.iter().any(|&c| u32::from(c) >= 1 << s.b) => 11,
        Some((_, x)) if x.iter().all(|&c| c == 0) => 15,
        _ => 0,
    }
}

/// The number of an add, or a drop, is the one that the early questions give, or one that the tries may give; and what it changed is within
/// `compare_outside_tries`.
pub fn judge(before: &Tables, after: &Tables, s: &Settings, page: u32, added: Option<(u32, &[u8])>, number: u32) -> bool {
    let first = early(before, s, page, added);
    let open: &[u32] = if added.is_some() { &[0, 12, 14] } else { &[0, 14] };
    assert!(if first == 0 { open.contains(&number) } else { number == first }, "{number}, not {first}");
    compare_outside_tries(before, after, s, page, added, number)
}

/// What an add, or a drop, of a page may have changed, whatever the tables held: with 0 that page's word, signature and row; with 14 that
/// row at most; and in both cases words of the tries. Says whether the row of the page is the sketch then.
fn compare_outside_tries(before: &Tables, after: &Tables, s: &Settings, page: u32, added: Option<(u32, &[u8])>, number: u32) -> bool {
    let mut want = before.clone();
    if number != 0 && number != 14 {
        assert!(*after == want, "a refusal changed a table");
        return false;
    }
    let (p, m, page) = (s.pages as usize, s.m as usize, page as usize);
    let row = page * m..page * m + m;
    let written = added.is_some_and(|(_, x)| after.sketches[row.clone()] == *x);
    if let Some((_, x)) = added.filter(|_| written) {
        want.sketches[row].copy_from_slice(x);
    }
    if number == 0 {
        assert_eq!(written, added.is_some());
        want.pages[page] = added.map_or(0, |(class, _)| 1 + class);
        want.pages[p + page] = added.map_or(before.pages[p + page], |(_, x)| signature(s.b, x));
        want.settings[FREE] = after.settings[FREE];
    }
    let (nodes, links) = (..s.lengths().nodes, 2 * p..s.lengths().pages);
    want.nodes[nodes].copy_from_slice(&after.nodes[nodes]);
    want.pages[links.clone()].copy_from_slice(&after.pages[links]);
    assert!(*after == want, "{number}: a word outside the tries, or of another page, changed");
    written
}
