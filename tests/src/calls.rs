//! The C calls as include/vetchdawn.h declares them, each behind a safe function.
use crate::tables::{Lengths, Settings, Tables};

/// Tables lent to a call, wherever they lie.
pub struct Lent<'a> {
    pub settings: &'a mut [u32],
    pub nodes: &'a mut [u32],
    pub pages: &'a mut [u32],
    pub sketches: &'a mut [u8],
    pub working: &'a mut [u32],
}

impl Tables {
    pub fn lend(&mut self) -> Lent<'_> {
        Lent {
            settings: &mut self.settings,
            nodes: &mut self.nodes,
            pages: &mut self.pages,
            sketches: &mut self.sketches,
            working: &mut self.working,
        }
    }
}

mod c {
    extern "C" {
        #[allow(clippy::too_many_arguments)]
        pub fn vetch_open(
            settings: *mut u32, settings_len: usize, nodes: *mut u32, nodes_len: usize, pages: *mut u32, pages_len: usize,
            sketches: *const u8, sketches_len: usize, working: *const u32, working_len: usize,
            b: u32, m: u32, q: u32, page_capacity: u32, node_capacity: u32, thresholds: *const u16, thresholds_len: usize,
        ) -> u32;
        pub fn vetch_join(settings: *mut u32, settings_len: usize, reader: u32, group: u32) -> u32;
        pub fn vetch_leave(settings: *mut u32, settings_len: usize, reader: u32, group: u32) -> u32;
        pub fn vetch_grant(settings: *mut u32, settings_len: usize, group: u32, class: u32) -> u32;
        pub fn vetch_revoke(settings: *mut u32, settings_len: usize, group: u32, class: u32) -> u32;
        pub fn vetch_show(
            settings: *const u32, settings_len: usize, pages: *const u32, pages_len: usize, sketches: *const u8, sketches_len: usize,
            reader: u32, page: u32, start: *mut u32, length: *mut u32,
        ) -> u32;
        #[allow(clippy::too_many_arguments)]
        pub fn vetch_add(
            settings: *mut u32, settings_len: usize, nodes: *mut u32, nodes_len: usize, pages: *mut u32, pages_len: usize,
            sketches: *mut u8, sketches_len: usize, page: u32, class: u32, sketch: *const u8, sketch_len: usize,
        ) -> u32;
        #[allow(clippy::too_many_arguments)]
        pub fn vetch_drop(
            settings: *mut u32, settings_len: usize, nodes: *mut u32, nodes_len: usize, pages: *mut u32, pages_len: usize,
            sketches: *const u8, sketches_len: usize, page: u32,
        ) -> u32;
        #[allow(clippy::too_many_arguments)]
        pub fn vetch_search(
            settings: *const u32, settings_len: usize, nodes: *const u32, nodes_len: usize, pages: *const u32, pages_len: usize,
            sketches: *const u8, sketches_len: usize, working: *mut u32, working_len: usize,
            reader: u32, radius: u32, sketch: *const u8, sketch_len: usize, output: *mut u16, output_len: usize,
            #[cfg(not(feature = "one_list"))] distances: *mut u16,
            #[cfg(not(feature = "one_list"))] distances_len: usize,
            count: *mut u32,
        ) -> u32;
        #[allow(clippy::too_many_arguments)]
        pub fn vetch_check(
            settings: *const u32, settings_len: usize, nodes: *const u32, nodes_len: usize, pages: *const u32, pages_len: usize,
            sketches: *const u8, sketches_len: usize, working: *mut u32, working_len: usize, sound: *mut u32,
        ) -> u32;
        pub fn vetch_form(m: u8, first: u8, bytes: *const u8, bytes_len: usize) -> u32;
        #[allow(clippy::too_many_arguments)]
        pub fn vetch_lengths(
            b: u32, m: u32, q: u32, page_capacity: u32, node_capacity: u32,
            settings: *mut u32, nodes: *mut u32, pages: *mut u32, sketches: *mut u32, working: *mut u32,
        ) -> u32;
        pub fn vetch_measure(b: u32, m: u32, x: *const u8, x_len: usize, y: *const u8, y_len: usize, distance: *mut u32) -> u32;
        pub fn vetch_pack(b: u32, m: u32, x: *const u8, x_len: usize, out: *mut u8, out_len: usize, length: *mut u32) -> u32;
        pub fn vetch_unpack(b: u32, m: u32, bytes: *const u8, bytes_len: usize, out: *mut u8, out_len: usize, length: *mut u32) -> u32;
    }
}

/// A call's number and the value beside it.
#[derive(Debug, PartialEq, Eq, Clone, Copy)]
pub struct Given {
    pub number: u32,
    pub value: u32,
}

pub fn measure(b: u32, m: u32, x: &[u8], y: &[u8]) -> Given {
    let mut value = u32::MAX;
    let number = unsafe { c::vetch_measure(b, m, x.as_ptr(), x.len(), y.as_ptr(), y.len(), &mut value) };
    Given { number, value }
}

pub fn pack(b: u32, m: u32, x: &[u8], out: &mut [u8]) -> Given {
    let mut value = u32::MAX;
    let number = unsafe { c::vetch_pack(b, m, x.as_ptr(), x.len(), out.as_mut_ptr(), out.len(), &mut value) };
    Given { number, value }
}

pub fn unpack(b: u32, m: u32, bytes: &[u8], out: &mut [u8]) -> Given {
    let mut value = u32::MAX;
    let number = unsafe { c::vetch_unpack(b, m, bytes.as_ptr(), bytes.len(), out.as_mut_ptr(), out.len(), &mut value) };
    Given { number, value }
}

pub fn open(t: &mut Tables, s: &Settings) -> u32 {
    lent_open(&mut t.lend(), s)
}

pub fn lent_open(t: &mut Lent, s: &Settings) -> u32 {
    unsafe {
        c::vetch_open(
            t.settings.as_mut_ptr(), t.settings.len(), t.nodes.as_mut_ptr(), t.nodes.len(), t.pages.as_mut_ptr(), t.pages.len(),
            t.sketches.as_ptr(), t.sketches.len(), t.working.as_ptr(), t.working.len(),
            s.b, s.m, s.q, s.pages, s.nodes, s.thresholds.as_ptr(), s.thresholds.len(),
        )
    }
}

pub fn join(t: &mut Tables, reader: u32, group: u32) -> u32 {
    lent_right(&mut t.lend(), 0, reader, group)
}

pub fn leave(t: &mut Tables, reader: u32, group: u32) -> u32 {
    lent_right(&mut t.lend(), 1, reader, group)
}

pub fn grant(t: &mut Tables, group: u32, class: u32) -> u32 {
    lent_right(&mut t.lend(), 2, group, class)
}

pub fn revoke(t: &mut Tables, group: u32, class: u32) -> u32 {
    lent_right(&mut t.lend(), 3, group, class)
}

/// Join, leave, grant or revoke, by its number here.
pub fn lent_right(t: &mut Lent, call: u64, x: u32, y: u32) -> u32 {
    let (words, len) = (t.settings.as_mut_ptr(), t.settings.len());
    unsafe {
        match call {
            0 => c::vetch_join(words, len, x, y),
            1 => c::vetch_leave(words, len, x, y),
            2 => c::vetch_grant(words, len, x, y),
            _ => c::vetch_revoke(words, len, x, y),
        }
    }
}

pub fn show(t: &mut Tables, reader: u32, page: u32) -> Result<(usize, usize), u32> {
    lent_show(&mut t.lend(), reader, page)
}

/// The row's start and length in the sketch table; with a refusal both are given as 0.
pub fn lent_show(t: &mut Lent, reader: u32, page: u32) -> Result<(usize, usize), u32> {
    let (mut start, mut length) = (u32::MAX, u32::MAX);
    let number = unsafe {
        c::vetch_show(
            t.settings.as_ptr(), t.settings.len(), t.pages.as_ptr(), t.pages.len(), t.sketches.as_ptr(), t.sketches.len(),
            reader, page, &mut start, &mut length,
        )
    };
    if number == 0 {
        return Ok((start as usize, length as usize));
    }
    assert_eq!((start, length), (0, 0), "a refusal gives 0 and 0");
    Err(number)
}

pub fn add(t: &mut Lent, page: u32, class: u32, sketch: &[u8]) -> u32 {
    unsafe {
        c::vetch_add(
            t.settings.as_mut_ptr(), t.settings.len(), t.nodes.as_mut_ptr(), t.nodes.len(), t.pages.as_mut_ptr(), t.pages.len(),
            t.sketches.as_mut_ptr(), t.sketches.len(), page, class, sketch.as_ptr(), sketch.len(),
        )
    }
}

pub fn drop(t: &mut Lent, page: u32) -> u32 {
    unsafe {
        c::vetch_drop(
            t.settings.as_mut_ptr(), t.settings.len(), t.nodes.as_mut_ptr(), t.nodes.len(), t.pages.as_mut_ptr(), t.pages.len(),
            t.sketches.as_ptr(), t.sketches.len(), page,
        )
    }
}

/// Is the archive one of before F-3? Its search lists the pages by rising number and leaves the distances as they were.
pub const ONE_LIST: bool = cfg!(feature = "one_list");

/// The number, and the count or the length needed. The lists of pages and distances may have any two lengths.
#[cfg_attr(feature = "one_list", allow(unused_variables))]
pub fn search(t: &mut Lent, reader: u32, radius: u32, query: &[u8], output: &mut [u16], distances: &mut [u16]) -> Given {
    let mut value = u32::MAX;
    let number = unsafe {
        c::vetch_search(
            t.settings.as_ptr(), t.settings.len(), t.nodes.as_ptr(), t.nodes.len(), t.pages.as_ptr(), t.pages.len(),
            t.sketches.as_ptr(), t.sketches.len(), t.working.as_mut_ptr(), t.working.len(),
            reader, radius, query.as_ptr(), query.len(), output.as_mut_ptr(), output.len(),
            #[cfg(not(feature = "one_list"))] distances.as_mut_ptr(),
            #[cfg(not(feature = "one_list"))] distances.len(),
            &mut value,
        )
    };
    Given { number, value }
}

/// The number, and whether the store is sound.
pub fn check(t: &mut Lent) -> (u32, bool) {
    let mut sound = u32::MAX;
    let number = unsafe {
        c::vetch_check(
            t.settings.as_ptr(), t.settings.len(), t.nodes.as_ptr(), t.nodes.len(), t.pages.as_ptr(), t.pages.len(),
            t.sketches.as_ptr(), t.sketches.len(), t.working.as_mut_ptr(), t.working.len(), &mut sound,
        )
    };
    assert!(sound <= 1, "neither yes nor no");
    (number, sound == 1)
}

/// Questions 1 to 3 of a journal command.
pub fn form(m: u8, first: u8, bytes: &[u8]) -> u32 {
    unsafe { c::vetch_form(m, first, bytes.as_ptr(), bytes.len()) }
}

/// The number, and how long the tables must be.
pub fn lengths(s: &Settings) -> (u32, Lengths) {
    let mut given = [u32::MAX; 5];
    let [settings, nodes, pages, sketches, working] = &mut given;
    let number = unsafe { c::vetch_lengths(s.b, s.m, s.q, s.pages, s.nodes, settings, nodes, pages, sketches, working) };
    let [settings, nodes, pages, sketches, working] = given.map(|n| n as usize);
    (number, Lengths { settings, nodes, pages, sketches, working })
}
