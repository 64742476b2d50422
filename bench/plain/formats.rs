//! The records of a range's metadata, and the pages and indexes of its checkpoints, as bytes.
use crate::bytes::{Bytes, Group, Reader, MAX_BLOCK};
use crate::keys::Keys;
use crate::packet::Place;
use crate::table::{Cell, Entries};

/// An index has at most so many bytes, which are a group.
pub const MAX_INDEX: usize = 4_194_304;

/// An extent of a stream by its index, and an offset.
#[derive(Clone, Copy, PartialEq, Eq, PartialOrd, Ord, Default)]
pub struct Position {
    pub index: u64,
    pub offset: u32,
}

/// A part of the log that is to be applied from a number on.
#[derive(Clone)]
pub struct Region {
    pub start: Position,
    pub end: Option<u64>,
    pub next: u64,
    pub keys: Keys,
}

impl Region {
    pub fn holds(&self, at: Position) -> bool {
        at >= self.start && self.end.is_none_or(|end| at.index < end)
    }
}

pub enum Item {
    Ranges(Keys),
    Checkpoint { combine: bool, index: Place, position: Position, next: u64 },
    SplitStatus { low: u64, high: u64, key: Bytes },
}

fn put_key(to: &mut Vec<u8>, key: &[u8]) {
    to.extend_from_slice(&(key.len() as u16).to_be_bytes());
    to.extend_from_slice(key);
}

fn put_keys(to: &mut Vec<u8>, keys: &Keys) {
    put_key(to, &keys.low);
    to.push(u8::from(keys.high.is_some()));
    put_key(to, keys.high.as_deref().unwrap_or(&[]));
}

fn put_place(to: &mut Vec<u8>, place: Place) {
    to.extend_from_slice(&place.extent.to_be_bytes());
    to.extend_from_slice(&place.offset.to_be_bytes());
    to.extend_from_slice(&place.length.to_be_bytes());
}

/// The group of one record of metadata.
pub fn record_group(buffer: &mut Vec<u8>, number: u64, item: &Item) -> Group {
    Group::of(buffer, std::iter::once(item), |item, to| {
        to.extend_from_slice(&number.to_be_bytes());
        match item {
            Item::Ranges(keys) => {
                to.push(1);
                put_keys(to, keys);
            }
            Item::Checkpoint { combine, index, position, next } => {
                to.extend_from_slice(&[2, u8::from(*combine)]);
                put_place(to, *index);
                to.extend_from_slice(&position.index.to_be_bytes());
                to.extend_from_slice(&position.offset.to_be_bytes());
                to.extend_from_slice(&next.to_be_bytes());
            }
            Item::SplitStatus { low, high, key } => {
                to.push(4);
                to.extend_from_slice(&low.to_be_bytes());
                to.extend_from_slice(&high.to_be_bytes());
                put_key(to, key);
            }
        }
    })
}

fn read_key(bytes: &Bytes, reader: &mut Reader) -> Option<Bytes> {
    let length = usize::from(reader.u16()?);
    Some(bytes.slice(reader.places(length)?))
}

fn read_keys(bytes: &Bytes, reader: &mut Reader) -> Option<Keys> {
    let (low, is_bounded, high) = (read_key(bytes, reader)?, reader.u8()? == 1, read_key(bytes, reader)?);
    Some(Keys { low, high: is_bounded.then_some(high) })
}

fn read_place(reader: &mut Reader) -> Option<Place> {
    Some(Place { extent: reader.u64()?, offset: reader.u32()?, length: reader.u32()? })
}

/// The number and the item of a record of metadata.
pub fn read_record(group: &Group) -> Option<(u64, Item)> {
    let bytes = group.block(0)?;
    let mut reader = Reader::new(&bytes);
    let number = reader.u64()?;
    let item = match reader.u8()? {
        1 => Item::Ranges(read_keys(&bytes, &mut reader)?),
        2 => {
            let (combine, index) = (reader.u8()? == 1, read_place(&mut reader)?);
            let position = Position { index: reader.u64()?, offset: reader.u32()? };
            Item::Checkpoint { combine, index, position, next: reader.u64()? }
        }
        4 => Item::SplitStatus { low: reader.u64()?, high: reader.u64()?, key: read_key(&bytes, &mut reader)? },
        _ => return None,
    };
    reader.is_empty().then_some((number, item))
}

/// Spells so many entries as a page.
pub fn put_page<'a>(to: &mut Vec<u8>, count: u16, entries: impl Iterator<Item = (&'a Bytes, &'a Cell)>) {
    to.extend_from_slice(&count.to_be_bytes());
    for (key, cell) in entries {
        put_key(to, key);
        match cell {
            Cell::Deleted => to.push(0),
            Cell::Inline(value) => {
                to.push(1);
                to.extend_from_slice(&(value.len() as u32).to_be_bytes());
                to.extend_from_slice(value);
            }
            Cell::Placed(place) => {
                to.push(2);
                put_place(to, *place);
            }
        }
    }
}

/// A page, and where its entries begin.
pub struct Page {
    bytes: Bytes,
    starts: Vec<u16>,
}

/// The entries of a page in order.
pub struct PageEntries {
    bytes: Bytes,
    at: usize,
    left: u16,
}

impl PageEntries {
    pub fn of(bytes: Bytes) -> Option<PageEntries> {
        let left = Reader::new(&bytes).u16()?;
        Some(PageEntries { bytes, at: 2, left })
    }
}

impl Iterator for PageEntries {
    type Item = (Bytes, Cell);

    fn next(&mut self) -> Option<(Bytes, Cell)> {
        self.left = self.left.checked_sub(1)?;
        let mut reader = Reader { bytes: &self.bytes, at: self.at };
        let key = read_key(&self.bytes, &mut reader)?;
        let cell = read_cell(&self.bytes, &mut reader)?;
        self.at = reader.at;
        Some((key, cell))
    }
}

fn read_cell(bytes: &Bytes, reader: &mut Reader) -> Option<Cell> {
    match reader.u8()? {
        0 => Some(Cell::Deleted),
        1 => {
            let length = reader.u32()? as usize;
            Some(Cell::Inline(bytes.slice(reader.places(length)?)))
        }
        2 => Some(Cell::Placed(read_place(reader)?)),
        _ => None,
    }
}

/// Passes over a cell.
fn skip_cell(reader: &mut Reader) -> Option<()> {
    let length = match reader.u8()? {
        0 => 0,
        1 => reader.u32()? as usize,
        2 => 16,
        _ => return None,
    };
    reader.places(length).map(|_| ())
}

impl Page {
    /// None where the bytes spell no page.
    pub fn of(bytes: Bytes) -> Option<Page> {
        let mut reader = Reader::new(&bytes);
        let count = reader.u16().filter(|count| *count > 0 && bytes.len() <= MAX_BLOCK)?;
        let mut starts = Vec::with_capacity(usize::from(count));
        let mut last: &[u8] = &[];
        for _ in 0..count {
            starts.push(reader.at as u16);
            let length = reader.u16()?;
            let key = reader.take(usize::from(length)).filter(|key| *key > last)?;
            skip_cell(&mut reader)?;
            last = key;
        }
        reader.is_empty().then_some(())?;
        Some(Page { bytes, starts })
    }

    /// What the page says of a key, if it has the key.
    pub fn find(&self, key: &[u8]) -> Option<Cell> {
        let found = self.starts.binary_search_by(|start| self.key(*start).cmp(key)).ok()?;
        let at = usize::from(self.starts[found]) + 2 + key.len();
        read_cell(&self.bytes, &mut Reader { bytes: &self.bytes, at })
    }

    /// The key of an entry that begins there.
    fn key(&self, start: u16) -> &[u8] {
        let rest = &self.bytes[usize::from(start)..];
        &rest[2..2 + usize::from(u16::from_be_bytes([rest[0], rest[1]]))]
    }

    pub fn entries(&self) -> PageEntries {
        PageEntries { bytes: self.bytes.clone(), at: 2, left: self.starts.len() as u16 }
    }
}

/// A page in an index: its first key, and where it stands.
#[derive(Clone)]
pub struct PageAt {
    pub first: Bytes,
    pub place: Place,
}

#[derive(Default)]
pub struct Index {
    pub pages: Vec<PageAt>,
    pub has_place: bool,
}

/// How many bytes an index has in all whose pages have these first keys.
pub fn index_size<'a>(first_keys: impl Iterator<Item = &'a Bytes>) -> usize {
    9 + first_keys.map(|key| 18 + key.len()).sum::<usize>()
}

impl Index {
    pub fn group(&self, text: &mut Vec<u8>, buffer: &mut Vec<u8>) -> Group {
        text.clear();
        let size = index_size(self.pages.iter().map(|page| &page.first)) as u32;
        text.extend_from_slice(&size.to_be_bytes());
        text.extend_from_slice(&(self.pages.len() as u32).to_be_bytes());
        text.push(u8::from(self.has_place));
        for page in &self.pages {
            put_key(text, &page.first);
            put_place(text, page.place);
        }
        Group::of(buffer, text.chunks(MAX_BLOCK), |block, to| to.extend_from_slice(block))
    }

    pub fn read(bytes: &Bytes) -> Option<Index> {
        let mut reader = Reader::new(bytes);
        let (_, count, has_place) = (reader.u32()?, reader.u32()?, reader.u8()? == 1);
        let page = |reader: &mut Reader| Some(PageAt { first: read_key(bytes, reader)?, place: read_place(reader)? });
        let pages = (0..count).map(|_| page(&mut reader)).collect::<Option<_>>()?;
        reader.is_empty().then_some(Index { pages, has_place })
    }

    /// The one page that may have a key.
    pub fn page_for(&self, key: &[u8]) -> Option<Place> {
        let next = self.pages.partition_point(|page| *page.first <= *key);
        Some(self.pages[next.checked_sub(1)?].place)
    }
}

/// The entries from a key on, that key among them.
pub fn from_key<'a>(entries: &'a Entries, first: &Bytes) -> impl Iterator<Item = (&'a Bytes, &'a Cell)> {
    entries.range::<[u8], _>((std::ops::Bound::Included(&**first), std::ops::Bound::Unbounded))
}
