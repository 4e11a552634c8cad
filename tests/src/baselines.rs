//! Other ways to answer the same searches, as plain programs: a pointer trie, hashing of blocks, and scans. None allocates in a search,
//! each tests a page where it meets it, and what is found is ordered by `sort_unstable`.
pub mod bits;
pub mod cases;
pub mod hashing;
pub mod hits;
pub mod lists;
pub mod packed;
pub mod register;
pub mod scan;
pub mod trie;

pub use bits::{Build, Words};
pub use cases::{Case, Kind, Library, Pages, OPEN};
pub use hashing::Hashing;
pub use hits::Hits;
pub use packed::Packed;
pub use scan::Planes;
pub use trie::Pointers;

/// A way to answer a search: the pages within the radius of a query, of the classes in `open`, each once, with their distances, by distance
/// and then by page.
pub trait Way {
    /// Writes them to `out`, and gives how many pages were tested.
    fn search(&mut self, open: u64, radius: u32, query: &[u8], out: &mut Hits) -> usize;
}

/// The start and length of block j of q.
pub fn block(m: usize, q: usize, j: usize) -> (usize, usize) {
    let length = |i: usize| m / q + usize::from(i < m % q);
    ((0..j).map(length).sum(), length(j))
}

#[cfg(test)]
mod tests;
