//! The load of a range: its streams are opened, its metadata is read, then its log, then its indexes, and its generation is confirmed.
use crate::bytes::{Bytes, Group};
use crate::client::{Client, News};
use crate::effects::{tell, Effects};
use crate::formats::{read_record, Index, PageAt, PageEntries, Position, Region};
use crate::log::Record;
use crate::packet::{Actor, Body};
use crate::range::{Gone, Installed, Range, Said, Stage, Step};
use crate::reads::PlaceRead;
use crate::refusal::Refusal;
use crate::server::Context;
use crate::streams::{Kind, StreamList};
use crate::table::Cell;
use std::iter::Peekable;

impl Range {
    /// The answer to the opening or to the confirmation.
    pub fn load_reply(&mut self, context: &mut Context, body: &Body) -> Step {
        match body {
            Body::Refused { refusal: Refusal::Stale, .. } => Err(Gone),
            Body::Opened { lists, .. } if self.stage == Stage::Opening => self.opened(context, lists),
            Body::Confirmed { .. } if self.stage == Stage::Confirming => self.serve(context),
            _ => Ok(()),
        }
    }

    pub fn ask_load_again(&mut self, context: &mut Context) {
        let (range, generation) = (self.number, self.generation);
        let Some(request) = self.asked else { return };
        let opens = self.stage == Stage::Opening;
        let body = if opens { Body::OpenStreams { range, generation, request } } else { Body::Confirm { range, generation, request } };
        context.send(Actor::Manager, body);
    }

    fn opened(&mut self, context: &mut Context, lists: &[StreamList; 4]) -> Step {
        let [metadata, log, rows, blob_data] = lists;
        let client = |kind, list: &StreamList| Client::new(self.number, kind, self.generation, list.clone());
        self.metadata = client(Kind::Metadata, metadata);
        self.log = client(Kind::Log, log);
        self.rows = client(Kind::RowData, rows);
        self.blob_data = blob_data.clone();
        (self.asked, self.said) = (None, Said::first());
        if self.metadata.list.open_last().is_some() {
            self.stage = Stage::Checking;
            self.metadata.check(context);
            return Ok(());
        }
        self.read_metadata(context, 0)
    }

    fn read_metadata(&mut self, context: &mut Context, position: usize) -> Step {
        if position == self.metadata.list.extents.len() {
            return self.begin_log(context);
        }
        self.stage = Stage::Reading(position);
        self.metadata.read(context, position);
        Ok(())
    }

    pub fn metadata_news(&mut self, context: &mut Context, news: News, groups: &[Group]) -> Step {
        match (news, self.stage) {
            (News::Checked | News::Sealed, Stage::Checking) => self.read_metadata(context, 0),
            (News::Sealed, Stage::Reading(position)) => self.read_metadata(context, position),
            (News::Content { .. }, Stage::Reading(position)) => {
                groups.iter().try_for_each(|group| self.said.fold(group)).ok_or(Gone)?;
                self.read_metadata(context, position + 1)
            }
            _ => Ok(()),
        }
    }

    /// Where the log is read from: at the start of the first region.
    fn first_position(&self) -> Option<usize> {
        let start = self.regions.first()?.start.index;
        let list = &self.log.list;
        (list.base..=list.end()).contains(&start).then(|| (start - list.base) as usize)
    }

    fn begin_log(&mut self, context: &mut Context) -> Step {
        self.regions.clone_from(&self.said.regions);
        open_region(&self.regions).ok_or(Gone)?;
        let first = self.first_position().ok_or(Gone)?;
        if self.log.list.open_last().is_some() {
            self.stage = Stage::Checking;
            self.log.check(context);
            return Ok(());
        }
        self.read_log(context, first)
    }

    fn read_log(&mut self, context: &mut Context, position: usize) -> Step {
        if position == self.log.list.extents.len() {
            return self.read_index(context, 0);
        }
        self.stage = Stage::Reading(position);
        self.log.read(context, position);
        Ok(())
    }

    pub fn log_news(&mut self, context: &mut Context, news: News, groups: &[Group]) -> Step {
        match (news, self.stage) {
            (News::Checked | News::Sealed, Stage::Checking) => {
                let first = self.first_position().ok_or(Gone)?;
                self.read_log(context, first)
            }
            (News::Sealed, Stage::Reading(position)) => self.read_log(context, position),
            (News::Content { extent }, Stage::Reading(position)) => {
                self.replay(extent, position, groups).ok_or(Gone)?;
                self.read_log(context, position + 1)
            }
            _ => Ok(()),
        }
    }

    /// The groups of an extent of the log are applied, each by the regions that hold it.
    fn replay(&mut self, extent: u64, position: usize, groups: &[Group]) -> Option<()> {
        let mut at = Position { index: self.log.list.base + position as u64, offset: 0 };
        for group in groups {
            let record = Record::of(group)?;
            for region in self.regions.iter_mut().filter(|region| region.holds(at)) {
                let skipped = region.next.checked_sub(record.first)?;
                region.next += record.count.saturating_sub(skipped);
                let (keys, own, live) = (&self.said.keys, &region.keys, &mut self.live);
                record.put(extent, at.offset, skipped, |key, cell| {
                    if keys.has(&key) && own.has(&key) {
                        live.put(key, cell);
                    }
                })?;
            }
            at.offset += group.size();
        }
        Some(())
    }

    /// Reads the index at a position, from 0 for the oldest.
    fn read_index(&mut self, context: &mut Context, position: usize) -> Step {
        let Some((place, _)) = self.said.indexes.get(position) else {
            self.confirm(context);
            return Ok(());
        };
        let places = self.places_of(place.extent).ok_or(Gone)?;
        self.stage = Stage::Indexing(position);
        self.reading = Some(PlaceRead::send(context, *place, false, places));
        Ok(())
    }

    pub fn index_comes(&mut self, context: &mut Context, bytes: &Bytes) -> Step {
        let Stage::Indexing(position) = self.stage else { return Ok(()) };
        let index = Index::read(bytes).ok_or(Gone)?;
        let keys = self.said.indexes[position].1.clone();
        self.indexes.push(Installed { keys, index });
        self.read_index(context, position + 1)
    }

    fn confirm(&mut self, context: &mut Context) {
        let request = context.request();
        (self.reading, self.stage, self.asked) = (None, Stage::Confirming, Some(request));
        context.send(Actor::Manager, Body::Confirm { range: self.number, generation: self.generation, request });
    }

    /// The next number is that of the open region, and the log's position the end of its last extent, or the region's start.
    fn serve(&mut self, context: &mut Context) -> Step {
        let region = open_region(&self.regions).ok_or(Gone)?;
        let list = &self.log.list;
        let end = list.extents.last().map(|last| Position {
            index: list.end() - 1,
            offset: last.length.or(self.log.checked).unwrap_or(0),
        });
        self.position = end.map_or(region.start, |end| end.max(region.start));
        self.next = region.next;
        (self.stage, self.asked) = (Stage::Serving, None);
        let rows = self.count_rows(context.effects);
        tell!(context.effects, "loaded {} {} {} {rows}", self.number, self.generation, self.next);
        Ok(())
    }

    /// How many keys have a value in the memory table over the indexes, each of which counts within its keys and the range's.
    fn count_rows(&self, effects: &Effects) -> usize {
        let is_row = |cell: &Cell| !matches!(cell, Cell::Deleted);
        if self.indexes.is_empty() {
            return self.live.entries.values().filter(|cell| is_row(cell)).count();
        }
        let live = self.live.entries.iter().map(|(key, cell)| (key.clone(), is_row(cell)));
        let mut layers: Vec<Peekable<Box<dyn Iterator<Item = (Bytes, bool)>>>> = Vec::new();
        for Installed { keys, index } in &self.indexes {
            let entries = index.pages.iter().flat_map(|page| shown_entries(effects, page));
            let within = entries.filter(|(key, _)| keys.has(key) && self.said.keys.has(key));
            let layer: Box<dyn Iterator<Item = _>> = Box::new(within.map(|(key, cell)| (key, is_row(&cell))));
            layers.push(layer.peekable());
        }
        let live: Box<dyn Iterator<Item = _>> = Box::new(live);
        layers.push(live.peekable());
        std::iter::from_fn(|| next_row(&mut layers)).filter(|is_row| *is_row).count()
    }
}

/// Whether the next key of some layers, the oldest first, is a row: what the newest says of it that has the key.
fn next_row(layers: &mut [Peekable<impl Iterator<Item = (Bytes, bool)>>]) -> Option<bool> {
    let least = layers.iter_mut().filter_map(Peekable::peek).map(|entry| &entry.0).min()?.clone();
    let told = layers.iter_mut().filter_map(|layer| layer.next_if(|entry| entry.0 == least));
    told.last().map(|entry| entry.1)
}

/// What was acknowledged of a page's entries.
fn shown_entries(effects: &Effects, page: &PageAt) -> impl Iterator<Item = (Bytes, Cell)> {
    effects.shown(page.place).and_then(PageEntries::of).into_iter().flatten()
}

impl Said {
    /// A record of the next number is taken, one of a number below passed over, and one above is damage.
    fn fold(&mut self, group: &Group) -> Option<()> {
        let (number, item) = read_record(group)?;
        if number == self.next {
            self.take(item);
        }
        (number < self.next).then_some(())
    }
}

/// The region without end, which stands last.
fn open_region(regions: &[Region]) -> Option<&Region> {
    regions.last().filter(|region| region.end.is_none() && region.next > 0)
}
