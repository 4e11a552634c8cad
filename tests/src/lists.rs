//! The two lists that a search writes, each with marks in it and a guard right behind it.
use crate::calls::{self, Given, Lent};
use crate::guard::Guarded;
use crate::plain::Hit;
use crate::tables::hit;

pub struct Lists {
    pages: Guarded<u16>,
    distances: Guarded<u16>,
}

/// What the places hold before a search: no distances, and not those of the other list.
fn marks(first: u16, places: usize) -> Vec<u16> {
    (0..places).map(|i| first + (i % 0x1000) as u16).collect()
}

const PAGES: u16 = 0xa000;
const DISTANCES: u16 = 0xc000;

impl Lists {
    /// Room for so many places in each.
    pub fn new(most: usize) -> Self {
        Lists { pages: Guarded::new(&vec![0; most]), distances: Guarded::new(&vec![0; most]) }
    }

    /// A search that is lent so many places for pages and so many for distances. Gives what is in the first places of the two, as many as it
    /// has listed; all places behind them are as they were. Only 0 and 13 give a count.
    pub fn search(&mut self, t: &mut Lent, reader: u32, radius: u32, query: &[u8], rooms: [usize; 2]) -> (Given, Vec<Hit>) {
        let [pages, distances] = [marks(PAGES, rooms[0]), marks(DISTANCES, rooms[1])];
        self.pages.set(&pages);
        self.distances.set(&distances);
        let given = calls::search(t, reader, radius, query, self.pages.get_mut(), self.distances.get_mut());
        assert!([0, 13].contains(&given.number) || given.value == 0, "{given:?}");
        let count = if given.number == 0 { given.value as usize } else { 0 };
        assert!(count <= rooms[0] && count <= rooms[1], "{given:?} with {rooms:?} places");
        let (listed, measured) = (self.pages.get(), self.distances.get());
        assert!(listed[count..] == pages[count..], "the rest of the pages changed, {given:?}, {rooms:?}");
        assert!(measured[count..] == distances[count..], "the rest of the distances changed, {given:?}, {rooms:?}");
        let hits = listed[..count].iter().zip(measured).map(|(&page, &distance)| Hit { page: page.into(), distance: distance.into() });
        (given, hits.collect())
    }
}

/// What holds of a list whatever the tables hold: each page is marked live, open to the reader and by its row within the radius, the
/// distance beside it is that of its row, and the list is ordered by distance, then page. So each page stands there once.
pub fn right_by_the_rows(t: &Lent, reader: u32, radius: u32, query: &[u8], list: &[Hit]) -> bool {
    let right = |h: &Hit| hit(t.settings, t.pages, t.sketches, reader, radius, query, h.page as usize) == Some(h.distance);
    list.iter().all(right) && list.windows(2).all(|w| (w[0].distance, w[0].page) < (w[1].distance, w[1].page))
}
