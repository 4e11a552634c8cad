//! Lists of pages in one vector, each contiguous behind its length, in a room of 2^k words.

#[derive(Default)]
pub struct Lists {
    words: Vec<u16>,
    /// rooms given up, by k
    free: [Vec<u32>; 17],
}

/// The k of a room for so many pages.
fn room(pages: usize) -> usize {
    (pages + 1).next_power_of_two().trailing_zeros() as usize
}

impl Lists {
    pub fn pages(&self, at: u32) -> &[u16] {
        let at = at as usize;
        &self.words[at + 1..at + 1 + usize::from(self.words[at])]
    }

    pub fn page(&self, at: u32, i: usize) -> u16 {
        self.words[at as usize + 1 + i]
    }

    fn fresh(&mut self, k: usize) -> u32 {
        self.free[k].pop().unwrap_or_else(|| {
            let at = self.words.len();
            self.words.resize(at + (1 << k), 0);
            at as u32
        })
    }

    pub fn empty(&mut self) -> u32 {
        let at = self.fresh(0);
        self.words[at as usize] = 0;
        at
    }

    pub fn one(&mut self, page: u16) -> u32 {
        let at = self.fresh(1);
        self.words[at as usize..at as usize + 2].copy_from_slice(&[1, page]);
        at
    }

    pub fn give_up(&mut self, at: u32) {
        let k = room(self.pages(at).len());
        self.free[k].push(at);
    }

    /// Where the list stands afterwards.
    pub fn push(&mut self, at: u32, page: u16) -> u32 {
        let n = self.pages(at).len();
        let to = self.resized(at, n + 1);
        self.words[to as usize + 1 + n] = page;
        to
    }

    /// Where the list stands afterwards; the last page takes the place of the one removed.
    pub fn remove(&mut self, at: u32, page: u16) -> u32 {
        let pages = self.pages(at);
        let Some(i) = pages.iter().position(|&p| p == page) else { return at };
        let last = pages.len() - 1;
        self.words[at as usize + 1 + i] = self.page(at, last);
        self.resized(at, last)
    }

    /// Gives a list another length, and another room where it needs one.
    fn resized(&mut self, at: u32, now: usize) -> u32 {
        let before = self.pages(at).len();
        let mut to = at;
        if room(now) != room(before) {
            to = self.fresh(room(now));
            let from = at as usize + 1;
            self.words.copy_within(from..from + now.min(before), to as usize + 1);
            self.free[room(before)].push(at);
        }
        self.words[to as usize] = now as u16;
        to
    }
}
