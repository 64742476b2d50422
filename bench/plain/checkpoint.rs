//! Checkpoints of a range: pages are merged, written and indexed, the index is recorded, and the log is trimmed.
use crate::bytes::{Bytes, Group, MAX_BLOCK, MAX_BLOCKS};
use crate::cache::Held;
use crate::effects::Effects;
use crate::formats::{from_key, index_size, put_page, record_group, Index, Item, Page, PageAt, PageEntries, Position, MAX_INDEX};
use crate::keys::Keys;
use crate::packet::{Actor, Body, Place, Request};
use crate::range::{Installed, Pause, Range, Stage, Step};
use crate::reads::PlaceRead;
use crate::refusal::Refusal;
use crate::server::Context;
use crate::table::{entry_size, Cell, Entries};
use std::collections::VecDeque;

/// So many indexes are combined also where that was not asked.
const MOST_INDEXES: usize = 16;

#[derive(Clone, Copy)]
enum Phase {
    Combining,
    Pages,
    Index,
    Record { index: Place },
    Trim { before: u64, to_blob: bool, request: Request },
}

/// A page that is to be written: so many entries from a key on, of so many bytes.
struct PlannedPage {
    first: Bytes,
    count: u16,
    length: u32,
}

pub struct Checkpoint {
    position: Position,
    next: u64,
    combine: bool,
    phase: Phase,
    /// The pages that are to be merged, each within some keys, and what was merged; of a plain one nothing.
    unmerged: VecDeque<(Keys, Place)>,
    merged: Entries,
    /// The pages that are to be written, in order, and the index of those that stand.
    planned: Vec<PlannedPage>,
    index: Index,
}

impl Checkpoint {
    pub fn awaits_trim(&self, answered: Request) -> bool {
        matches!(self.phase, Phase::Trim { request, .. } if request == answered)
    }

    /// The pages of the next group.
    fn next_pages(&self) -> &[PlannedPage] {
        let rest = &self.planned[self.index.pages.len()..];
        &rest[..rest.len().min(MAX_BLOCKS)]
    }

    /// The pages of the next group stand at an offset of an extent.
    fn pages_stand(&mut self, extent: u64, mut offset: u32) {
        for _ in 0..self.next_pages().len() {
            let PlannedPage { first, length, .. } = &self.planned[self.index.pages.len()];
            let place = Place { extent, offset, length: *length };
            self.index.pages.push(PageAt { first: first.clone(), place });
            offset += length;
        }
    }

    fn plan(&mut self, entries: &Entries) {
        self.planned = planned_pages(entries);
        self.index = Index { pages: Vec::with_capacity(self.planned.len()), has_place: have_place(entries) };
    }

    fn fits(&self) -> bool {
        index_size(self.planned.iter().map(|page| &page.first)) <= MAX_INDEX
    }

    /// What a page says within some keys comes over what was merged.
    fn merge(&mut self, entries: PageEntries, keys: &Keys, of_range: &Keys) {
        self.merged.extend(entries.filter(|(key, _)| keys.has(key) && of_range.has(key)));
    }

    /// The newer layer over what was merged, without the keys that were deleted.
    fn combine(&mut self, newer: &Entries) {
        self.merged.extend(newer.iter().map(|(key, cell)| (key.clone(), cell.clone())));
        self.merged.retain(|_, cell| !matches!(cell, Cell::Deleted));
    }
}

fn have_place(entries: &Entries) -> bool {
    entries.values().any(|cell| matches!(cell, Cell::Placed(_)))
}

/// Each page is as full as it can be.
fn planned_pages(entries: &Entries) -> Vec<PlannedPage> {
    let mut pages: Vec<PlannedPage> = Vec::new();
    for (key, cell) in entries {
        let size = entry_size(key.len(), cell) as u32;
        match pages.last_mut().filter(|page| page.length + size <= MAX_BLOCK as u32) {
            Some(page) => (page.count, page.length) = (page.count + 1, page.length + size),
            None => pages.push(PlannedPage { first: key.clone(), count: 1, length: 2 + size }),
        }
    }
    pages
}

/// A group of pages of these entries.
fn page_group(buffer: &mut Vec<u8>, pages: &[PlannedPage], entries: &Entries) -> Group {
    Group::of(buffer, pages.iter(), |page, to| {
        put_page(to, page.count, from_key(entries, &page.first).take(usize::from(page.count)));
    })
}

impl Range {
    /// Why no checkpoint begins.
    pub fn checkpoint_refusal(&self) -> Option<Refusal> {
        if self.stage != Stage::Serving {
            Some(Refusal::Loading)
        } else if self.pause == Pause::On {
            Some(Refusal::Paused)
        } else if self.checkpoint.is_some() || self.fixed.is_some() {
            Some(Refusal::Busy)
        } else {
            None
        }
    }

    /// The live layer becomes the fixed one, below a new one.
    pub fn begin_checkpoint(&mut self, context: &mut Context, combine: bool) {
        let combine = combine || self.indexes.len() >= MOST_INDEXES;
        let fixed = std::mem::take(&mut self.live);
        let mut checkpoint = Box::new(Checkpoint {
            position: self.position,
            next: self.out.as_ref().map_or(self.next, |out| out.first),
            combine,
            phase: if combine { Phase::Combining } else { Phase::Pages },
            unmerged: VecDeque::new(),
            merged: Entries::new(),
            planned: Vec::new(),
            index: Index::default(),
        });
        if combine {
            checkpoint.unmerged = self.pages_to_merge();
            (self.fixed, self.checkpoint) = (Some(fixed), Some(checkpoint));
            self.merge_on(context);
        } else {
            checkpoint.plan(&fixed.entries);
            (self.fixed, self.checkpoint) = (Some(fixed), Some(checkpoint));
            self.write_pages(context);
        }
    }

    /// All pages, the oldest index's first.
    fn pages_to_merge(&self) -> VecDeque<(Keys, Place)> {
        let of_index = |installed: &Installed| {
            let keys = installed.keys.clone();
            let places: Vec<Place> = installed.index.pages.iter().map(|page| page.place).collect();
            places.into_iter().map(move |place| (keys.clone(), place))
        };
        self.indexes.iter().flat_map(of_index).collect()
    }

    /// Merges the pages that are held, and asks for the next one that is not.
    fn merge_on(&mut self, context: &mut Context) {
        self.reading = None;
        let Some(checkpoint) = self.checkpoint.as_mut() else { return };
        while let Some((keys, place)) = checkpoint.unmerged.front() {
            let Some(Held::Page(page)) = self.cache.get(*place) else { break };
            let (entries, keys) = (page.entries(), keys.clone());
            checkpoint.merge(entries, &keys, &self.said.keys);
            checkpoint.unmerged.pop_front();
        }
        let Some(&(_, place)) = checkpoint.unmerged.front() else { return self.write_combined(context) };
        if let Some(places) = self.places_of(place.extent) {
            self.reading = Some(PlaceRead::send(context, place, true, places));
        }
    }

    /// The page that is to be merged next has come.
    pub fn page_comes(&mut self, context: &mut Context, bytes: &Bytes) -> Step {
        let Some(page) = Page::of(bytes.clone()) else { return Ok(()) };
        let Some(checkpoint) = self.checkpoint.as_mut() else { return Ok(()) };
        let Some((keys, _)) = checkpoint.unmerged.pop_front() else { return Ok(()) };
        checkpoint.merge(page.entries(), &keys, &self.said.keys);
        self.merge_on(context);
        Ok(())
    }

    /// All older pages are merged. Where the index of what they come to would fit no group the checkpoint goes on as a plain one.
    fn write_combined(&mut self, context: &mut Context) {
        let (Some(checkpoint), Some(fixed)) = (self.checkpoint.as_mut(), &self.fixed) else { return };
        checkpoint.combine(&fixed.entries);
        let merged = std::mem::take(&mut checkpoint.merged);
        checkpoint.plan(&merged);
        checkpoint.merged = merged;
        if !checkpoint.fits() {
            (checkpoint.combine, checkpoint.merged) = (false, Entries::new());
            checkpoint.plan(&fixed.entries);
        }
        self.write_pages(context);
    }

    /// Appends the next pages, or after the last ones their index. One that fits no group is not written, and the checkpoint rests.
    fn write_pages(&mut self, context: &mut Context) {
        let (Some(checkpoint), Some(fixed)) = (self.checkpoint.as_mut(), &self.fixed) else { return };
        let Effects { buffer, text, .. } = context.effects;
        let pages = checkpoint.next_pages();
        let group = if !pages.is_empty() {
            let entries = if checkpoint.combine { &checkpoint.merged } else { &fixed.entries };
            checkpoint.phase = Phase::Pages;
            page_group(buffer, checkpoint.next_pages(), entries)
        } else {
            checkpoint.phase = Phase::Index;
            if !checkpoint.fits() {
                return;
            }
            checkpoint.index.group(text, buffer)
        };
        self.rows.append(context, group);
    }

    /// What was appended to row data stands there.
    pub fn rows_stand(&mut self, context: &mut Context, extent: u64, offset: u32) -> Step {
        let Some(checkpoint) = self.checkpoint.as_mut() else { return Ok(()) };
        match checkpoint.phase {
            Phase::Pages => {
                checkpoint.pages_stand(extent, offset);
                self.write_pages(context);
            }
            Phase::Index => self.record_checkpoint(context, extent, offset),
            _ => {}
        }
        Ok(())
    }

    fn record_checkpoint(&mut self, context: &mut Context, extent: u64, offset: u32) {
        let Some(checkpoint) = self.checkpoint.as_mut() else { return };
        let length = index_size(checkpoint.index.pages.iter().map(|page| &page.first)) as u32;
        let index = Place { extent, offset, length };
        checkpoint.phase = Phase::Record { index };
        let Checkpoint { combine, position, next, .. } = **checkpoint;
        let item = Item::Checkpoint { combine, index, position, next };
        let group = record_group(&mut context.effects.buffer, self.said.next, &item);
        self.metadata.append(context, group);
    }

    /// The record of a checkpoint stands: its index is the newest, the fixed layer goes, and the log is trimmed.
    pub fn record_stands(&mut self, context: &mut Context) -> Step {
        let Some(checkpoint) = self.checkpoint.as_mut() else { return Ok(()) };
        let Phase::Record { index: place } = checkpoint.phase else { return Ok(()) };
        let Checkpoint { combine, position, next, .. } = **checkpoint;
        if combine {
            self.indexes.clear();
        }
        self.indexes.push(Installed { keys: self.said.keys.clone(), index: std::mem::take(&mut checkpoint.index) });
        self.said.take(Item::Checkpoint { combine, index: place, position, next });
        self.fixed = None;
        let list = &self.log.list;
        let before = if list.extents.is_empty() { position.index } else { position.index.min(list.end() - 1) };
        let to_blob = self.indexes.iter().any(|installed| installed.index.has_place);
        let request = context.request();
        checkpoint.phase = Phase::Trim { before, to_blob, request };
        (checkpoint.merged, checkpoint.planned) = (Entries::new(), Vec::new());
        self.send_trim(context, before, to_blob, request);
        Ok(())
    }

    fn send_trim(&self, context: &mut Context, before: u64, to_blob: bool, request: Request) {
        let (range, generation) = (self.number, self.generation);
        context.send(Actor::Manager, Body::Trim { range, generation, before, to_blob, request });
    }

    pub fn trim_again(&self, context: &mut Context) {
        let phase = self.checkpoint.as_ref().map(|checkpoint| checkpoint.phase);
        if let Some(Phase::Trim { before, to_blob, request }) = phase {
            self.send_trim(context, before, to_blob, request);
        }
    }

    /// The checkpoint is over: the extents below its index leave the log.
    pub fn trimmed(&mut self) -> Step {
        let Some(Phase::Trim { before, to_blob, .. }) = self.checkpoint.take().map(|checkpoint| checkpoint.phase) else {
            return Ok(());
        };
        let list = &mut self.log.list;
        let count = (before.saturating_sub(list.base) as usize).min(list.extents.len());
        let gone = list.extents.drain(..count);
        if to_blob {
            self.blob_data.extents.extend(gone);
        } else {
            drop(gone);
        }
        list.base = list.base.max(before);
        Ok(())
    }
}
