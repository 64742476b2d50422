//! The partition map: which range has which keys, who holds it until when, and the file of its records.
use crate::bytes::{Bytes, Reader};
use crate::device::{Device, Written};
use crate::effects::{tell, Effects};
use crate::keys::Keys;
use crate::packet::{Actor, Body, Packet, Request};
use crate::refusal::Refusal;
use std::rc::Rc;

/// What a record of the map begins with, and what each kind does.
const MANAGE: u8 = 7;
const ASSIGN: u8 = 16;
const RENEW: u8 = 17;
const BEGIN_SPLIT: u8 = 18;
const COMPLETE_SPLIT: u8 = 19;

/// A split that is pending at a key, and the numbers of the two ranges to come.
struct Pending {
    key: Rc<[u8]>,
    low: u64,
    high: u64,
}

struct Entry {
    range: u64,
    keys: Keys,
    generation: u64,
    holder: Option<u8>,
    until: u64,
    pending: Option<Pending>,
}

/// The ranges in the order of their keys, and the number of the next one.
struct Table {
    entries: Vec<Entry>,
    next: u64,
}

pub struct Map {
    pub device: Device,
    table: Table,
}

impl Table {
    fn first() -> Table {
        Table { entries: vec![half(1, Keys::all(), 0)], next: 2 }
    }

    fn entry(&mut self, range: u64) -> Option<&mut Entry> {
        self.entries.iter_mut().find(|entry| entry.range == range)
    }

    fn assign(&mut self, range: u64, server: u8, until: u64) -> Option<()> {
        let entry = self.entry(range)?;
        entry.generation += 1;
        entry.holder = Some(server);
        entry.until = entry.until.max(until);
        entry.pending = None;
        Some(())
    }

    fn renew(&mut self, range: u64, until: u64) -> Option<()> {
        let entry = self.entry(range)?;
        entry.until = entry.until.max(until);
        Some(())
    }

    fn begin_split(&mut self, range: u64, key: Rc<[u8]>) -> Option<()> {
        let low = self.next;
        self.entry(range)?.pending = Some(Pending { key, low, high: low + 1 });
        self.next += 2;
        Some(())
    }

    /// Two ranges stand in the place of one whose split is pending.
    fn complete_split(&mut self, range: u64) -> Option<()> {
        let at = self.entries.iter().position(|entry| entry.range == range)?;
        let entry = &self.entries[at];
        let Pending { key, low, high } = entry.pending.as_ref()?;
        let key = Bytes::of(Rc::clone(key));
        let low = half(*low, entry.keys.below(key.clone()), entry.generation);
        let high = half(*high, entry.keys.from(key), entry.generation);
        self.entries.splice(at..=at, [low, high]);
        Some(())
    }

    fn of_key(&self, key: &[u8]) -> &Entry {
        &self.entries[self.entries.partition_point(|entry| *entry.keys.low <= *key) - 1]
    }
}

/// A range that nobody holds.
fn half(range: u64, keys: Keys, generation: u64) -> Entry {
    Entry { range, keys, generation, holder: None, until: 0, pending: None }
}

impl Map {
    pub fn new() -> Map {
        Map { device: Device::new(), table: Table::first() }
    }

    pub fn assign(&mut self, range: u64, server: u8, until: u64, now: u64, effects: &mut Effects) -> Result<(), Refusal> {
        let entry = self.table.entry(range).ok_or(Refusal::NotOwner)?;
        if entry.holder.is_some_and(|holder| holder != server) && now < entry.until {
            return Err(Refusal::LeaseHeld);
        }
        let (generation, end) = (entry.generation + 1, entry.until.max(until));
        self.table.assign(range, server, until);
        if self.write(&[&[MANAGE, ASSIGN], &range.to_be_bytes(), &[server], &until.to_be_bytes()]) == Written::Stands {
            effects.send(Actor::Map, Actor::Server(server), Body::Assign { range, generation, until: end });
        }
        Ok(())
    }

    pub fn renew(&mut self, range: u64, server: u8, until: u64, effects: &mut Effects) -> Result<(), Refusal> {
        let entry = self.table.entry(range).filter(|entry| entry.holder == Some(server)).ok_or(Refusal::NotOwner)?;
        let (generation, end) = (entry.generation, entry.until.max(until));
        self.table.renew(range, until);
        if self.write(&[&[MANAGE, RENEW], &range.to_be_bytes(), &until.to_be_bytes()]) == Written::Stands {
            effects.send(Actor::Map, Actor::Server(server), Body::Renew { range, generation, until: end });
        }
        Ok(())
    }

    /// Adds a record after what it does to the table, which goes where the map stops in it.
    fn write(&mut self, fields: &[&[u8]]) -> Written {
        let written = self.device.write(fields);
        self.drop_if_stopped();
        written
    }

    /// What the map does with a packet.
    pub fn take(&mut self, packet: &Packet, effects: &mut Effects) {
        let (request, answer) = match packet.body {
            Body::Route { ref key, request } => {
                let Entry { range, holder: server, .. } = *self.table.of_key(key);
                (request, Ok(Some(Body::RouteIs { request, range, server })))
            }
            Body::BeginSplit { range, generation, ref key, request } => (request, self.begin_split(range, generation, key, request)),
            Body::CompleteSplit { range, generation, request } => {
                (request, self.complete_split(range, generation, request, effects))
            }
            _ => return,
        };
        match answer {
            Ok(Some(body)) => effects.send(Actor::Map, packet.from, body),
            Ok(None) => {}
            Err(refusal) => effects.refuse(Actor::Map, packet.from, request, refusal),
        }
    }

    fn begin_split(&mut self, range: u64, generation: u64, key: &Rc<[u8]>, request: Request) -> Result<Option<Body>, Refusal> {
        let next = self.table.next;
        let entry = self.table.entry(range).filter(|entry| entry.generation == generation);
        let entry = entry.ok_or(Refusal::GenerationChanged)?;
        if !entry.keys.is_split_by(key) {
            return Err(Refusal::BadSplitKey);
        }
        if let Some(Pending { low, high, .. }) = entry.pending.as_ref().filter(|pending| pending.key == *key) {
            return Ok(Some(Body::SplitBegun { request, low: *low, high: *high }));
        }
        self.table.begin_split(range, Rc::clone(key));
        let size = (key.len() as u16).to_be_bytes();
        let written = self.write(&[&[MANAGE, BEGIN_SPLIT], &range.to_be_bytes(), &size, key]);
        Ok((written == Written::Stands).then_some(Body::SplitBegun { request, low: next, high: next + 1 }))
    }

    fn complete_split(&mut self, range: u64, generation: u64, request: Request, effects: &mut Effects) -> Result<Option<Body>, Refusal> {
        let entry = self.table.entry(range).filter(|entry| entry.generation == generation);
        let pending = entry.and_then(|entry| entry.pending.as_ref()).ok_or(Refusal::GenerationChanged)?;
        let (key, low, high) = (Rc::clone(&pending.key), pending.low, pending.high);
        self.table.complete_split(range);
        let written = self.write(&[&[MANAGE, COMPLETE_SPLIT], &range.to_be_bytes()]);
        if written != (Written::Stopped { stands: false }) {
            tell!(effects, "split {range} {low} {high} {}", Hex(&key));
        }
        Ok((written == Written::Stands).then_some(Body::SplitDone { request }))
    }

    pub fn stop(&mut self, call: u64, keep: bool) {
        self.device.stop(call, keep);
        self.drop_if_stopped();
    }

    fn drop_if_stopped(&mut self) {
        if !self.device.up {
            self.table.entries = Vec::new();
        }
    }

    /// Comes back with what its records make.
    pub fn restart(&mut self) {
        self.device.up = true;
        self.table = Table::first();
        for body in self.device.records() {
            replay(&mut self.table, body).expect("a record that the map wrote");
        }
    }
}

/// What a record makes of the table.
fn replay(table: &mut Table, body: &[u8]) -> Option<()> {
    let mut reader = Reader::new(&body[1..]);
    let (kind, range) = (reader.u8()?, reader.u64()?);
    match kind {
        ASSIGN => table.assign(range, reader.u8()?, reader.u64()?),
        RENEW => table.renew(range, reader.u64()?),
        BEGIN_SPLIT => {
            let length = reader.u16()?;
            table.begin_split(range, Rc::from(reader.take(usize::from(length))?))
        }
        COMPLETE_SPLIT => table.complete_split(range),
        _ => None,
    }
}

/// Bytes in hex; no bytes are `-`.
pub struct Hex<'a>(pub &'a [u8]);

impl std::fmt::Display for Hex<'_> {
    fn fmt(&self, to: &mut std::fmt::Formatter<'_>) -> std::fmt::Result {
        const DIGITS: &[u8; 16] = b"0123456789abcdef";
        if self.0.is_empty() {
            return to.write_str("-");
        }
        for chunk in self.0.chunks(64) {
            let mut text = [0; 128];
            for (pair, byte) in text.chunks_exact_mut(2).zip(chunk) {
                pair[0] = DIGITS[usize::from(byte >> 4)];
                pair[1] = DIGITS[usize::from(byte & 15)];
            }
            to.write_str(std::str::from_utf8(&text[..2 * chunk.len()]).expect("digits"))?;
        }
        Ok(())
    }
}
