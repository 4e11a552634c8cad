//! The register as the best plain program keeps it: the same words, the same questions and the same answers, without a branch where that
//! is faster.
use crate::tables::{Settings, ENTRIES, GRANTS, MARK, MEMBERS, SETTINGS};

type Words = [u32; SETTINGS];

/// Questions 5 and 6.
#[inline(always)]
fn shown(settings: &mut [u32]) -> Result<&mut Words, u32> {
    let w: &mut Words = settings.first_chunk_mut().ok_or(5u32)?;
    let s = Settings { b: w[1], m: w[2], q: w[3], pages: w[4], nodes: w[5], thresholds: Vec::new() };
    let bits = w[6..MEMBERS].iter().fold(0, |bits, threshold| bits | threshold);
    if w[0] == MARK && s.within_limits() && bits < 65_536 { Ok(w) } else { Err(6) }
}

#[inline(always)]
fn put(word: u32, bit: u32, on: bool) -> u32 {
    word & !bit | if on { bit } else { 0 }
}

/// Both words of all that is granted to these groups.
#[inline(always)]
fn granted(w: &Words, mut groups: u32) -> [u32; 2] {
    let mut open = [0; 2];
    while groups != 0 {
        let at = GRANTS + 2 * groups.trailing_zeros() as usize;
        open = [open[0] | w[at], open[1] | w[at + 1]];
        groups &= groups - 1;
    }
    open
}

/// A join, or a leave.
#[inline(never)]
pub fn member(settings: &mut [u32], reader: u32, group: u32, on: bool) -> u32 {
    let w = match shown(settings) {
        Ok(w) => w,
        Err(number) => return number,
    };
    if reader > 255 || group > 31 {
        return 7;
    }
    let reader = reader as usize;
    let groups = put(w[MEMBERS + reader], 1 << group, on);
    w[MEMBERS + reader] = groups;
    let open = granted(w, groups);
    w[ENTRIES + 2 * reader..ENTRIES + 2 * reader + 2].copy_from_slice(&open);
    0
}

/// A grant, or a revoke: the groups that have the class are found once for all members.
#[inline(never)]
pub fn grant(settings: &mut [u32], group: u32, class: u32, on: bool) -> u32 {
    let w = match shown(settings) {
        Ok(w) => w,
        Err(number) => return number,
    };
    if group > 31 || class > 63 {
        return 7;
    }
    let (half, bit) = (class as usize / 32, 1 << (class % 32));
    let at = GRANTS + 2 * group as usize + half;
    w[at] = put(w[at], bit, on);
    let holders = (0..32).fold(0, |holders, g| holders | u32::from(w[GRANTS + 2 * g + half] & bit != 0) << g);
    let (records, entries) = w.split_at_mut(ENTRIES);
    for (&groups, entry) in records[MEMBERS..GRANTS].iter().zip(entries.chunks_exact_mut(2)) {
        let new = put(entry[half], bit, groups & holders != 0);
        entry[half] = if groups >> group & 1 == 1 { new } else { entry[half] };
    }
    0
}

/// Is every entry what the records say?
#[inline(never)]
pub fn is_current(settings: &[u32]) -> bool {
    let w: &Words = settings.first_chunk().unwrap();
    let entries = w[ENTRIES..].chunks_exact(2);
    w[MEMBERS..GRANTS].iter().zip(entries).all(|(&groups, entry)| granted(w, groups) == *entry)
}
