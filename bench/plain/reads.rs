//! Gets of a range, and reads of what stands at a place.
use crate::bytes::Bytes;
use crate::cache::Held;
use crate::effects::tell;
use crate::formats::Page;
use crate::keys::is_key;
use crate::map::Hex;
use crate::packet::{Actor, Body, Place, Places, Request};
use crate::range::{Pause, Range, Stage, Step};
use crate::refusal::Refusal;
use crate::server::Context;
use crate::table::Cell;

/// So many Gets of a range may wait.
const MOST_GETS: usize = 256;

/// A read that is out, at one of the three replicas of its extent.
#[derive(Clone, Copy)]
pub struct PlaceRead {
    pub request: Request,
    pub place: Place,
    pub page: bool,
    replica: u8,
}

impl PlaceRead {
    pub fn send(context: &mut Context, place: Place, page: bool, places: Places) -> PlaceRead {
        let read = PlaceRead { request: context.request(), place, page, replica: 0 };
        read.ask(context, places);
        read
    }

    fn ask(&self, context: &mut Context, places: Places) {
        let body = Body::ReadAt { place: self.place, request: self.request };
        context.send(Actor::Node(places[usize::from(self.replica)]), body);
    }

    /// The read goes to the next place of its extent, with its number.
    fn again(&mut self, context: &mut Context, places: Option<Places>) {
        self.replica = (self.replica + 1) % 3;
        if let Some(places) = places {
            self.ask(context, places);
        }
    }
}

/// A Get that waits for reads, the last of which was sent last.
pub struct WaitingGet {
    pub from: Actor,
    pub request: Request,
    key: Bytes,
    reads: Vec<PlaceRead>,
}

impl WaitingGet {
    fn read(&self, request: Request) -> Option<&PlaceRead> {
        self.reads.iter().find(|read| read.request == request)
    }

    pub fn awaits(&self, request: Request) -> bool {
        self.read(request).is_some()
    }
}

/// What a look-up finds: a cell or none, or the place of a page that is to be read.
enum Found {
    Cell(Option<Cell>),
    Needs(Place),
}

impl Range {
    fn get_refusal(&self, context: &Context, key: &[u8]) -> Option<Refusal> {
        if self.stage != Stage::Serving {
            Some(Refusal::Loading)
        } else if self.pause == Pause::On {
            Some(Refusal::Paused)
        } else if self.has_ended(context) {
            Some(Refusal::LeaseEnded)
        } else if !is_key(key) {
            Some(Refusal::BadKey)
        } else if !self.said.keys.has(key) {
            Some(Refusal::OutOfRange)
        } else if self.gets.len() >= MOST_GETS {
            Some(Refusal::Busy)
        } else {
            None
        }
    }

    pub fn get(&mut self, context: &mut Context, from: Actor, request: Request, key: &Bytes) -> Step {
        if let Some(refusal) = self.get_refusal(context, key) {
            context.refuse(from, request, refusal);
            return Ok(());
        }
        let cell = self.standing(key).cloned();
        if cell.is_none() {
            self.use_pages(key);
        }
        let found = cell.map_or_else(|| self.look_in_indexes(key), |cell| Found::Cell(Some(cell)));
        if let Found::Cell(Some(Cell::Placed(place))) = found {
            self.cache.promote(place);
        }
        let get = WaitingGet { from, request, key: key.clone(), reads: Vec::new() };
        if let Some(get) = self.answer_get(context, get, found) {
            self.gets.push(get);
        }
        Ok(())
    }

    /// The cell of the memory table.
    fn standing(&self, key: &[u8]) -> Option<&Cell> {
        self.live.entries.get(key).or_else(|| self.fixed.as_ref()?.entries.get(key))
    }

    /// The pages that may have a key, one of each index, go to the front of what is held, the oldest index's last.
    fn use_pages(&mut self, key: &[u8]) {
        for installed in self.indexes.iter().rev().filter(|installed| installed.keys.has(key)) {
            if let Some(place) = installed.index.page_for(key) {
                self.cache.promote(place);
            }
        }
    }

    /// What the indexes say of a key, the newest first.
    fn look_in_indexes(&self, key: &[u8]) -> Found {
        for installed in self.indexes.iter().rev().filter(|installed| installed.keys.has(key)) {
            let Some(place) = installed.index.page_for(key) else { continue };
            let Some(Held::Page(page)) = self.cache.get(place) else { return Found::Needs(place) };
            if let Some(cell) = page.find(key) {
                return Found::Cell(Some(cell));
            }
        }
        Found::Cell(None)
    }

    /// Answers a Get, or asks for one thing that is missing.
    fn answer_get(&mut self, context: &mut Context, get: WaitingGet, found: Found) -> Option<WaitingGet> {
        let value = match found {
            Found::Needs(place) => return Some(self.ask_for(context, get, place, true)),
            Found::Cell(Some(Cell::Placed(place))) => match self.cache.get(place) {
                Some(Held::Value(value)) => Some(value.clone()),
                _ => return Some(self.ask_for(context, get, place, false)),
            },
            Found::Cell(Some(Cell::Inline(value))) => Some(value),
            Found::Cell(_) => None,
        };
        let (range, generation, key) = (self.number, self.generation, Hex(&get.key));
        match &value {
            Some(value) => tell!(context.effects, "got {range} {generation} {key} {}", value.len()),
            None => tell!(context.effects, "got {range} {generation} {key} none"),
        }
        context.send(get.from, Body::Value { request: get.request, value });
        None
    }

    /// A place in an extent that the load was not told of never comes.
    fn ask_for(&self, context: &mut Context, mut get: WaitingGet, place: Place, page: bool) -> WaitingGet {
        if let Some(places) = self.places_of(place.extent) {
            get.reads.push(PlaceRead::send(context, place, page, places));
        }
        get
    }

    /// The bytes of a read of a Get have come: each Get that waits is tried again, with them.
    pub fn get_reply(&mut self, context: &mut Context, request: Request, place: Place, bytes: &Bytes) -> Step {
        let Some(read) = self.gets.iter().find_map(|get| get.read(request)) else { return Ok(()) };
        let held = if read.page { Page::of(bytes.clone()).map(Held::Page) } else { Some(Held::Value(bytes.clone())) };
        let Some(held) = held else { return Ok(()) };
        if read.place == place {
            self.cache.put(place, held);
        }
        for mut get in std::mem::take(&mut self.gets) {
            get.reads.retain(|read| read.request != request);
            if let Some(get) = self.try_again(context, get) {
                self.gets.push(get);
            }
        }
        Ok(())
    }

    fn try_again(&mut self, context: &mut Context, get: WaitingGet) -> Option<WaitingGet> {
        let refusal = if self.pause == Pause::On {
            Some(Refusal::Paused)
        } else {
            self.has_ended(context).then_some(Refusal::LeaseEnded)
        };
        if let Some(refusal) = refusal {
            context.refuse(get.from, get.request, refusal);
            return None;
        }
        let cell = self.standing(&get.key).cloned();
        let found = cell.map_or_else(|| self.look_in_indexes(&get.key), |cell| Found::Cell(Some(cell)));
        self.answer_get(context, get, found)
    }

    /// The last read of each Get goes to its next place.
    pub fn get_again(&mut self, context: &mut Context) {
        let mut gets = std::mem::take(&mut self.gets);
        for read in gets.iter_mut().filter_map(|get| get.reads.last_mut()) {
            read.again(context, self.places_of(read.place.extent));
        }
        self.gets = gets;
    }

    /// The read of an index, or of a page that is merged, goes to its next place.
    pub fn read_again(&mut self, context: &mut Context) {
        if let Some(mut read) = self.reading.take() {
            read.again(context, self.places_of(read.place.extent));
            self.reading = Some(read);
        }
    }
}
