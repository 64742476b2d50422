//! One layer of a memory table, and what it keeps of a value.
use crate::bytes::Bytes;
use crate::packet::Place;
use std::collections::BTreeMap;

/// A value of more bytes is kept by its place.
pub const MAX_INLINE: usize = 4_096;
pub const MAX_VALUE: usize = 65_536;

#[derive(Clone)]
pub enum Cell {
    Deleted,
    Inline(Bytes),
    Placed(Place),
}

pub type Entries = BTreeMap<Bytes, Cell>;

/// How many bytes an entry with a key of this length has in a page.
pub fn entry_size(key: usize, cell: &Cell) -> usize {
    let cell = match cell {
        Cell::Deleted => 1,
        Cell::Inline(value) => 5 + value.len(),
        Cell::Placed(_) => 17,
    };
    2 + key + cell
}

/// Entries, and how many bytes they have in pages.
#[derive(Default)]
pub struct Layer {
    pub entries: Entries,
    pub size: usize,
}

impl Layer {
    pub fn put(&mut self, key: Bytes, cell: Cell) {
        let length = key.len();
        self.size += entry_size(length, &cell);
        if let Some(old) = self.entries.insert(key, cell) {
            self.size -= entry_size(length, &old);
        }
    }
}
