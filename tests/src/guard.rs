//! Tables that end at memory without access rights, so that a read or write past the end stops the test.
use crate::calls::Lent;
use crate::tables::Tables;
use std::ffi::c_void;

extern "C" {
    fn mmap(addr: *mut c_void, length: usize, prot: i32, flags: i32, fd: i32, offset: i64) -> *mut c_void;
    fn mprotect(addr: *mut c_void, length: usize, prot: i32) -> i32;
    fn munmap(addr: *mut c_void, length: usize) -> i32;
}

const PAGE: usize = 4096;
/// So wide that a damaged link of 19 bits does not lead past it: not to a node's own words, nor to one of its heads.
const GUARD: usize = 64 << 20;
const NO_ACCESS: i32 = 0;
const READ_WRITE: i32 = 3;
const PRIVATE_ANONYMOUS_NORESERVE: i32 = 0x4022;

/// A slice between two guards, right before the one behind it, or right behind the one before.
pub struct Guarded<T: Copy> {
    map: *mut u8,
    size: usize,
    data: *mut T,
    len: usize,
}

impl<T: Copy> Guarded<T> {
    pub fn new(data: &[T]) -> Self {
        Self::placed(data, false)
    }

    pub fn at_start(data: &[T]) -> Self {
        Self::placed(data, true)
    }

    fn placed(data: &[T], start: bool) -> Self {
        let bytes = std::mem::size_of_val(data);
        let inner = bytes.div_ceil(PAGE) * PAGE;
        let size = inner + 2 * GUARD;
        unsafe {
            let map = mmap(std::ptr::null_mut(), size, NO_ACCESS, PRIVATE_ANONYMOUS_NORESERVE, -1, 0).cast::<u8>();
            assert!(map as isize != -1, "no memory");
            assert_eq!(mprotect(map.add(GUARD).cast(), inner, READ_WRITE), 0);
            let data_at = map.add(GUARD + if start { 0 } else { inner - bytes }).cast::<T>();
            std::ptr::copy_nonoverlapping(data.as_ptr(), data_at, data.len());
            Guarded { map, size, data: data_at, len: data.len() }
        }
    }

    /// Other data in the same place, right before the guard behind it. There must be room for it.
    pub fn set(&mut self, data: &[T]) {
        let bytes = std::mem::size_of_val(data);
        assert!(bytes <= self.size - 2 * GUARD);
        unsafe {
            self.data = self.map.add(self.size - GUARD - bytes).cast::<T>();
            std::ptr::copy_nonoverlapping(data.as_ptr(), self.data, data.len());
        }
        self.len = data.len();
    }

    pub fn get(&self) -> &[T] {
        unsafe { std::slice::from_raw_parts(self.data, self.len) }
    }

    pub fn get_mut(&mut self) -> &mut [T] {
        unsafe { std::slice::from_raw_parts_mut(self.data, self.len) }
    }
}

impl<T: Copy> Drop for Guarded<T> {
    fn drop(&mut self) {
        unsafe {
            munmap(self.map.cast(), self.size);
        }
    }
}

/// The tables of one index, each guarded.
pub struct GuardedTables {
    pub settings: Guarded<u32>,
    pub nodes: Guarded<u32>,
    pub pages: Guarded<u32>,
    pub sketches: Guarded<u8>,
    pub working: Guarded<u32>,
}

impl GuardedTables {
    pub fn new(t: &Tables) -> Self {
        GuardedTables {
            settings: Guarded::new(&t.settings),
            nodes: Guarded::new(&t.nodes),
            pages: Guarded::new(&t.pages),
            sketches: Guarded::new(&t.sketches),
            working: Guarded::new(&t.working),
        }
    }

    /// Each right behind the guard before it.
    pub fn at_start(t: &Tables) -> Self {
        GuardedTables {
            settings: Guarded::at_start(&t.settings),
            nodes: Guarded::at_start(&t.nodes),
            pages: Guarded::at_start(&t.pages),
            sketches: Guarded::at_start(&t.sketches),
            working: Guarded::at_start(&t.working),
        }
    }

    /// Overwrites them with tables of the same lengths.
    pub fn fill(&mut self, t: &Tables) {
        self.settings.get_mut().copy_from_slice(&t.settings);
        self.nodes.get_mut().copy_from_slice(&t.nodes);
        self.pages.get_mut().copy_from_slice(&t.pages);
        self.sketches.get_mut().copy_from_slice(&t.sketches);
        self.working.get_mut().copy_from_slice(&t.working);
    }

    pub fn lend(&mut self) -> Lent<'_> {
        Lent {
            settings: self.settings.get_mut(),
            nodes: self.nodes.get_mut(),
            pages: self.pages.get_mut(),
            sketches: self.sketches.get_mut(),
            working: self.working.get_mut(),
        }
    }

    pub fn tables(&self) -> Tables {
        Tables {
            settings: self.settings.get().to_vec(),
            nodes: self.nodes.get().to_vec(),
            pages: self.pages.get().to_vec(),
            sketches: self.sketches.get().to_vec(),
            working: self.working.get().to_vec(),
        }
    }
}
