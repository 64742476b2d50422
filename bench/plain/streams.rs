//! Streams as they are named, told and built.
use crate::packet::Places;

#[derive(Clone, Copy, PartialEq, Eq, PartialOrd, Ord)]
pub enum Kind {
    Metadata,
    Log,
    RowData,
    BlobData,
}

pub const KINDS: [Kind; 4] = [Kind::Metadata, Kind::Log, Kind::RowData, Kind::BlobData];

/// What is told of an extent: its places, and its length where it is sealed.
#[derive(Clone)]
pub struct StreamExtent {
    pub extent: u64,
    pub places: Places,
    pub length: Option<u32>,
}

/// A stream's extents; the first one has the base as its index.
#[derive(Clone, Default)]
pub struct StreamList {
    pub base: u64,
    pub extents: Vec<StreamExtent>,
}

impl StreamList {
    /// The last extent, where it is not known to be sealed.
    pub fn open_last(&self) -> Option<&StreamExtent> {
        self.extents.last().filter(|last| last.length.is_none())
    }

    pub fn seal_last(&mut self, length: u32) {
        if let Some(last) = self.extents.last_mut() {
            last.length = Some(length);
        }
    }

    /// The index after the last extent's.
    pub fn end(&self) -> u64 {
        self.base + self.extents.len() as u64
    }

    pub fn places_of(&self, extent: u64) -> Option<Places> {
        self.extents.iter().find(|found| found.extent == extent).map(|found| found.places)
    }
}

/// A stream that is built of others, each under the generation that is its fence.
pub struct Modify {
    pub stream: (u64, Kind),
    pub sources: Vec<((u64, Kind), u64)>,
}
