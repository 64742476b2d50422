//! The pages and values that were read for Gets, the most recently used first.
use crate::bytes::Bytes;
use crate::formats::Page;
use crate::packet::Place;
use std::collections::BTreeMap;

/// So many are held at most.
const MOST: usize = 1_024;
/// Before the first and after the last.
const NONE: u32 = u32::MAX;

pub enum Held {
    Page(Page),
    Value(Bytes),
}

struct Slot {
    place: Place,
    held: Held,
    before: u32,
    after: u32,
}

pub struct Cache {
    by_place: BTreeMap<Place, u32>,
    slots: Vec<Slot>,
    first: u32,
    last: u32,
}

impl Cache {
    pub fn new() -> Cache {
        Cache { by_place: BTreeMap::new(), slots: Vec::new(), first: NONE, last: NONE }
    }

    /// What is held of a place, which moves nothing.
    pub fn get(&self, place: Place) -> Option<&Held> {
        let slot = *self.by_place.get(&place)?;
        Some(&self.slots[slot as usize].held)
    }

    /// What is held of a place goes to the front.
    pub fn promote(&mut self, place: Place) {
        if let Some(&slot) = self.by_place.get(&place) {
            self.move_to_front(slot);
        }
    }

    /// Holds this of a place, in front; the last goes where so many are held.
    pub fn put(&mut self, place: Place, held: Held) {
        if let Some(&slot) = self.by_place.get(&place) {
            self.slots[slot as usize].held = held;
            return self.move_to_front(slot);
        }
        let slot = if self.slots.len() < MOST {
            self.slots.push(Slot { place, held, before: NONE, after: NONE });
            self.slots.len() as u32 - 1
        } else {
            self.reuse_last(place, held)
        };
        self.by_place.insert(place, slot);
        self.put_in_front(slot);
    }

    fn reuse_last(&mut self, place: Place, held: Held) -> u32 {
        let slot = self.last;
        self.take_out(slot);
        self.by_place.remove(&self.slots[slot as usize].place);
        self.slots[slot as usize] = Slot { place, held, before: NONE, after: NONE };
        slot
    }

    fn move_to_front(&mut self, slot: u32) {
        if slot != self.first {
            self.take_out(slot);
            self.put_in_front(slot);
        }
    }

    fn take_out(&mut self, slot: u32) {
        let Slot { before, after, .. } = self.slots[slot as usize];
        match self.slots.get_mut(before as usize) {
            Some(previous) => previous.after = after,
            None => self.first = after,
        }
        match self.slots.get_mut(after as usize) {
            Some(next) => next.before = before,
            None => self.last = before,
        }
    }

    fn put_in_front(&mut self, slot: u32) {
        let first = std::mem::replace(&mut self.first, slot);
        (self.slots[slot as usize].before, self.slots[slot as usize].after) = (NONE, first);
        match self.slots.get_mut(first as usize) {
            Some(next) => next.before = slot,
            None => self.last = slot,
        }
    }
}
