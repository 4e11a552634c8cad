//! The state word of a node (docs/LAYOUT.md): a leaf's has the number of its pages above the link to the first of them. The words of other
//! nodes and of leaves without pages have no link in their low half.

pub const FREE_NODE: u32 = 0;
pub const INNER: u32 = 0x0001_0000;
pub const EMPTY_LEAF: u32 = 0x0002_0000;
/// What the number can be at most.
pub const MOST: u32 = 65_535;

#[derive(Clone, Copy, PartialEq, Eq, Debug)]
pub enum State {
    Free,
    Inner,
    /// The number of its pages as it is written, and the link to the first.
    Leaf { number: u32, first: u32 },
}

/// What any word says, on damaged tables too.
pub fn read(word: u32) -> State {
    match word {
        FREE_NODE => State::Free,
        INNER => State::Inner,
        EMPTY_LEAF => State::Leaf { number: 0, first: 0 },
        _ => State::Leaf { number: word / 65_536, first: word % 65_536 },
    }
}

/// The link to the first page of a leaf; none of another node.
pub fn first(word: u32) -> Option<u32> {
    match read(word) {
        State::Leaf { first, .. } => Some(first),
        _ => None,
    }
}

/// The word of a leaf with so many pages.
pub fn leaf(number: u32, first: u32) -> u32 {
    assert!(number <= MOST && first <= 65_535 && (number == 0) == (first == 0), "{number} pages, the first at link {first}");
    if number == 0 { EMPTY_LEAF } else { number * 65_536 + first }
}

/// A state word with another number above its link. Of a word without a link 0, 1 and 2 make that of a free node, an inner one and an empty
/// leaf.
pub fn with_number(word: u32, number: u32) -> u32 {
    number * 65_536 + word % 65_536
}
