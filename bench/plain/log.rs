//! The groups of a commit log, written and read.
use crate::bytes::{Bytes, Group, Reader, MAX_BLOCK, MAX_BLOCKS};
use crate::effects::Effects;
use crate::packet::{Change, Place};
use crate::table::{Cell, MAX_INLINE};
use std::rc::Rc;

/// The length of the text, the number of the first transaction, and how many there are.
const HEAD: usize = 14;

/// A group of as many of the first transactions as the batch allows and as fit; how many they are, and how long its text is.
pub struct Formed {
    pub group: Group,
    pub count: usize,
    pub text: u32,
}

pub fn form<'a>(effects: &mut Effects, first: u64, transactions: impl Iterator<Item = &'a [Change]>) -> Formed {
    let Effects { text, buffer, .. } = effects;
    text.clear();
    text.resize(HEAD, 0);
    let (mut count, mut large) = (0, Vec::new());
    for changes in transactions {
        let (length, values) = (text.len(), large.len());
        put_transaction(text, &mut large, changes);
        if text.len().div_ceil(MAX_BLOCK) + large.len() > MAX_BLOCKS {
            text.truncate(length);
            large.truncate(values);
            break;
        }
        count += 1;
    }
    let length = text.len() as u32;
    text[..4].copy_from_slice(&length.to_be_bytes());
    text[4..12].copy_from_slice(&first.to_be_bytes());
    text[12..HEAD].copy_from_slice(&(count as u16).to_be_bytes());
    let group = Group::of(buffer, text.chunks(MAX_BLOCK).chain(large), |block, to| to.extend_from_slice(block));
    Formed { group, count, text: length }
}

fn put_transaction<'a>(text: &mut Vec<u8>, large: &mut Vec<&'a [u8]>, changes: &'a [Change]) {
    text.push(changes.len() as u8);
    for Change { key, value } in changes {
        text.extend_from_slice(&(key.len() as u16).to_be_bytes());
        text.extend_from_slice(key);
        let Some(value) = value else {
            text.push(0);
            continue;
        };
        let size = (value.len() as u32).to_be_bytes();
        if value.len() > MAX_INLINE {
            text.extend_from_slice(&[2, large.len() as u8]);
            text.extend_from_slice(&size);
            large.push(value);
        } else {
            text.push(1);
            text.extend_from_slice(&size);
            text.extend_from_slice(value);
        }
    }
}

/// What a row keeps of a value whose group stands in an extent, where the next large value stands at an offset.
pub fn kept(value: Option<&Bytes>, extent: u64, offset: &mut u32) -> Cell {
    match value {
        None => Cell::Deleted,
        Some(value) if value.len() > MAX_INLINE => placed(extent, offset, value.len() as u32),
        Some(value) => Cell::Inline(value.clone()),
    }
}

fn placed(extent: u64, offset: &mut u32, length: u32) -> Cell {
    let place = Place { extent, offset: *offset, length };
    *offset += length;
    Cell::Placed(place)
}

/// A group as it is read: its text, the number of its first transaction, and how many there are.
pub struct Record {
    text: Bytes,
    pub first: u64,
    pub count: u64,
}

impl Record {
    pub fn of(group: &Group) -> Option<Record> {
        let block = group.block(0)?;
        let mut reader = Reader::new(&block);
        let (length, first, count) = (reader.u32()? as usize, reader.u64()?, u64::from(reader.u16()?));
        let text = if length <= block.len() { block.slice(0..length) } else { joined(group, length)? };
        Some(Record { text, first, count })
    }

    /// Puts what rows keep of the transactions after the first so many, where the group stands in an extent from an offset on.
    pub fn put(&self, extent: u64, offset: u32, skipped: u64, mut put: impl FnMut(Bytes, Cell)) -> Option<()> {
        let mut reader = Reader::new(&self.text);
        reader.take(HEAD)?;
        let mut large = offset + self.text.len() as u32;
        for number in 0..self.count {
            for _ in 0..reader.u8()? {
                let length = usize::from(reader.u16()?);
                let key = reader.places(length)?;
                let cell = self.cell(&mut reader, extent, &mut large)?;
                if number >= skipped {
                    put(self.text.slice(key), cell);
                }
            }
        }
        reader.is_empty().then_some(())
    }

    fn cell(&self, reader: &mut Reader, extent: u64, large: &mut u32) -> Option<Cell> {
        match reader.u8()? {
            0 => Some(Cell::Deleted),
            1 => {
                let length = reader.u32()? as usize;
                Some(Cell::Inline(self.text.slice(reader.places(length)?)))
            }
            2 => {
                reader.u8()?;
                Some(placed(extent, large, reader.u32()?))
            }
            _ => None,
        }
    }
}

/// A text that is cut into several blocks.
fn joined(group: &Group, length: usize) -> Option<Bytes> {
    if length > group.size() as usize {
        return None;
    }
    let mut text = Vec::with_capacity(length);
    group.copy(0, length, &mut text);
    Some(Bytes::of(Rc::from(text)))
}
