//! Bytes that are shared: a piece of a buffer, a group of blocks as its record spells it, and a reader of spelled bytes.
use crate::digest::{self, digest};
use std::borrow::Borrow;
use std::cmp::Ordering;
use std::ops::{Deref, Range};
use std::rc::Rc;

pub const MAX_BLOCK: usize = 65_536;
pub const MAX_BLOCKS: usize = 64;

/// A piece of a buffer that others share.
#[derive(Clone)]
pub struct Bytes {
    buffer: Rc<[u8]>,
    start: u32,
    end: u32,
}

impl Bytes {
    pub fn of(buffer: Rc<[u8]>) -> Bytes {
        let end = buffer.len() as u32;
        Bytes { buffer, start: 0, end }
    }

    /// These places of a buffer.
    pub fn piece(buffer: &Rc<[u8]>, places: Range<usize>) -> Bytes {
        Bytes { buffer: Rc::clone(buffer), start: places.start as u32, end: places.end as u32 }
    }

    /// These places of this piece.
    pub fn slice(&self, places: Range<usize>) -> Bytes {
        let start = self.start as usize;
        Bytes::piece(&self.buffer, start + places.start..start + places.end)
    }
}

impl From<&[u8]> for Bytes {
    fn from(bytes: &[u8]) -> Bytes {
        Bytes::of(Rc::from(bytes))
    }
}

impl Deref for Bytes {
    type Target = [u8];

    fn deref(&self) -> &[u8] {
        &self.buffer[self.start as usize..self.end as usize]
    }
}

impl Borrow<[u8]> for Bytes {
    fn borrow(&self) -> &[u8] {
        self
    }
}

impl PartialEq for Bytes {
    fn eq(&self, other: &Bytes) -> bool {
        **self == **other
    }
}

impl Eq for Bytes {}

impl PartialOrd for Bytes {
    fn partial_cmp(&self, other: &Bytes) -> Option<Ordering> {
        Some(self.cmp(other))
    }
}

impl Ord for Bytes {
    fn cmp(&self, other: &Bytes) -> Ordering {
        (**self).cmp(other)
    }
}

/// So many bytes stand about a block: its size and its digest.
const ABOUT_BLOCK: usize = 4 + digest::SIZE;

/// A group as its record spells it: the count of its blocks, and each block after its size and before its digest.
#[derive(Clone)]
pub struct Group {
    spelling: Rc<[u8]>,
}

impl Group {
    /// The group of these blocks, each written by the function after a buffer that is kept.
    pub fn of<T>(buffer: &mut Vec<u8>, blocks: impl Iterator<Item = T>, write: impl Fn(T, &mut Vec<u8>)) -> Group {
        let mut writer = GroupWriter::new(buffer);
        for block in blocks {
            writer.block(|to| write(block, to));
        }
        writer.group()
    }

    /// The group whose spelling these bytes begin with, each block with its own digest, and what follows it.
    pub fn read(bytes: &[u8]) -> Option<(Group, &[u8])> {
        let mut end = 1;
        for _ in 0..*bytes.first()? {
            let (size, rest) = bytes.get(end..)?.split_first_chunk()?;
            let (block, rest) = rest.split_at_checked(u32::from_be_bytes(*size) as usize)?;
            if !rest.starts_with(&digest(block)) {
                return None;
            }
            end += ABOUT_BLOCK + block.len();
        }
        Some((Group { spelling: Rc::from(&bytes[..end]) }, &bytes[end..]))
    }

    pub fn spelling(&self) -> &[u8] {
        &self.spelling
    }

    pub fn count(&self) -> usize {
        usize::from(self.spelling[0])
    }

    /// How many bytes the blocks have.
    pub fn size(&self) -> u32 {
        (self.spelling.len() - 1 - ABOUT_BLOCK * self.count()) as u32
    }

    /// Where the blocks stand in the spelling.
    fn places(&self) -> impl Iterator<Item = Range<usize>> + '_ {
        let mut end = 1;
        (0..self.count()).map(move |_| {
            let start = end + 4;
            let size = u32::from_be_bytes(self.spelling[end..start].try_into().expect("four bytes")) as usize;
            end = start + size + digest::SIZE;
            start..start + size
        })
    }

    pub fn blocks(&self) -> impl Iterator<Item = &[u8]> {
        self.places().map(|places| &self.spelling[places])
    }

    pub fn block(&self, number: usize) -> Option<Bytes> {
        Some(Bytes::piece(&self.spelling, self.places().nth(number)?))
    }

    /// So many bytes of the joined blocks from an offset on: shared where they stand in one block, and else joined.
    pub fn part(&self, offset: usize, length: usize) -> Bytes {
        let mut before = 0;
        for places in self.places() {
            let size = places.len();
            if before <= offset && offset + length <= before + size {
                let start = places.start + offset - before;
                return Bytes::piece(&self.spelling, start..start + length);
            }
            if offset < before + size {
                break;
            }
            before += size;
        }
        let mut joined = Vec::with_capacity(length);
        self.copy(offset, length, &mut joined);
        Bytes::of(Rc::from(joined))
    }

    /// Copies up to so many bytes of the joined blocks from an offset on.
    pub fn copy(&self, offset: usize, length: usize, to: &mut Vec<u8>) {
        let (mut skip, mut left) = (offset, length);
        for block in self.blocks() {
            let part = &block[skip.min(block.len())..];
            let part = &part[..left.min(part.len())];
            to.extend_from_slice(part);
            skip = skip.saturating_sub(block.len());
            left -= part.len();
        }
    }
}

/// Spells a group into a buffer that is kept.
pub struct GroupWriter<'a> {
    buffer: &'a mut Vec<u8>,
}

impl GroupWriter<'_> {
    pub fn new(buffer: &mut Vec<u8>) -> GroupWriter<'_> {
        buffer.clear();
        buffer.push(0);
        GroupWriter { buffer }
    }

    /// One more block, which is written after the buffer.
    pub fn block(&mut self, write: impl FnOnce(&mut Vec<u8>)) {
        let start = self.buffer.len() + 4;
        self.buffer.extend_from_slice(&[0; 4]);
        write(self.buffer);
        let size = (self.buffer.len() - start) as u32;
        self.buffer[start - 4..start].copy_from_slice(&size.to_be_bytes());
        let digest = digest(&self.buffer[start..]);
        self.buffer.extend_from_slice(&digest);
        self.buffer[0] = self.buffer[0].saturating_add(1);
    }

    pub fn group(self) -> Group {
        Group { spelling: Rc::from(&self.buffer[..]) }
    }
}

/// Reads spelled bytes from their beginning on.
pub struct Reader<'a> {
    pub bytes: &'a [u8],
    pub at: usize,
}

impl<'a> Reader<'a> {
    pub fn new(bytes: &'a [u8]) -> Reader<'a> {
        Reader { bytes, at: 0 }
    }

    /// Where the next so many bytes stand.
    pub fn places(&mut self, length: usize) -> Option<Range<usize>> {
        let start = self.at;
        let end = start.checked_add(length).filter(|end| *end <= self.bytes.len())?;
        self.at = end;
        Some(start..end)
    }

    pub fn take(&mut self, length: usize) -> Option<&'a [u8]> {
        let places = self.places(length)?;
        Some(&self.bytes[places])
    }

    pub fn number<const N: usize>(&mut self) -> Option<[u8; N]> {
        self.take(N)?.try_into().ok()
    }

    pub fn u8(&mut self) -> Option<u8> {
        Some(self.number::<1>()?[0])
    }

    pub fn u16(&mut self) -> Option<u16> {
        self.number().map(u16::from_be_bytes)
    }

    pub fn u32(&mut self) -> Option<u32> {
        self.number().map(u32::from_be_bytes)
    }

    pub fn u64(&mut self) -> Option<u64> {
        self.number().map(u64::from_be_bytes)
    }

    pub fn rest(&mut self) -> &'a [u8] {
        let rest = &self.bytes[self.at..];
        self.at = self.bytes.len();
        rest
    }

    pub fn is_empty(&self) -> bool {
        self.at == self.bytes.len()
    }
}
