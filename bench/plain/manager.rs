//! The stream manager: its streams and extents, and the file of their records.
use crate::bytes::Reader;
use crate::device::{Device, Written};
use crate::effects::{tell, Effects};
use crate::node::{are_nodes, generation_of};
use crate::packet::{Actor, Body, Packet, Places, Request};
use crate::refusal::Refusal;
use crate::streams::{Kind, Modify, StreamExtent, StreamList, KINDS};
use std::collections::BTreeMap;

/// What a record of the manager begins with, and what each kind does.
const MANAGE: u8 = 7;
const SETUP: u8 = 1;
const CREATE: u8 = 2;
const OPEN: u8 = 3;
const EXTEND: u8 = 4;
const SEAL: u8 = 5;
const TRIM: u8 = 6;
const MODIFY: u8 = 7;

struct Extent {
    places: Places,
    fence: u64,
    sealed: Option<u32>,
    /// What a stop drops: what each place has told, and who asked last for the seal.
    frozen: [Option<u32>; 3],
    known_sealed: [bool; 3],
    asker: Option<(Actor, Request)>,
}

impl Extent {
    fn place(&self, from: Actor) -> Option<usize> {
        self.places.iter().position(|place| Actor::Node(*place) == from)
    }
}

#[derive(Clone, Default)]
struct Stream {
    base: u64,
    fence: u64,
    extents: Vec<u64>,
}

type Streams = BTreeMap<(u64, Kind), Stream>;

pub struct Manager {
    pub device: Device,
    nodes: u8,
    target: u32,
    streams: Streams,
    /// Extent 1 first.
    extents: Vec<Extent>,
}

fn first_streams() -> Streams {
    KINDS.iter().map(|kind| ((1, *kind), Stream::default())).collect()
}

fn is_foreign(from: Actor, range: u64) -> bool {
    matches!(from, Actor::User(_)) && range != 0
}

impl Manager {
    pub fn new(nodes: u8, target: u32) -> Manager {
        let mut device = Device::new();
        device.write(&[&[MANAGE, SETUP, nodes], &target.to_be_bytes()]);
        Manager { device, nodes, target, streams: first_streams(), extents: Vec::new() }
    }

    fn extent(&mut self, extent: u64) -> Option<&mut Extent> {
        self.extents.get_mut(usize::try_from(extent).ok()?.checked_sub(1)?)
    }

    fn is_open(&self, extent: u64) -> bool {
        self.extents.get(extent as usize - 1).is_some_and(|extent| extent.sealed.is_none())
    }

    /// Whether the manager runs on after this record.
    fn write(&mut self, fields: &[&[u8]]) -> bool {
        self.device.write(fields) == Written::Stands
    }

    /// What the manager does with a packet.
    pub fn take(&mut self, packet: &Packet, effects: &mut Effects) {
        let from = packet.from;
        let (request, answer) = match packet.body {
            Body::CreateStream { range, kind, fence, request } => {
                (request, self.create(from, range, kind, generation_of(from, fence), request))
            }
            Body::OpenStreams { range, generation, request } => (request, self.open(from, range, generation, request)),
            Body::Confirm { range, generation, request } => (request, self.confirm(from, range, generation, request)),
            Body::Extend { request, .. } => (request, self.extend(packet, effects)),
            Body::Trim { request, .. } => (request, self.trim(packet)),
            Body::MultiModify { ref list, request } => (request, self.modify(from, list, request)),
            Body::SealExtent { extent, request } => (request, self.seal_extent(from, extent, request, effects)),
            ref body => return self.told(from, body, effects),
        };
        match answer {
            Ok(Some(body)) => effects.send(Actor::Manager, from, body),
            Ok(None) => {}
            Err(refusal) => effects.refuse(Actor::Manager, from, request, refusal),
        }
        self.drop_if_stopped();
    }

    fn create(&mut self, from: Actor, range: u64, kind: Kind, fence: u64, request: Request) -> Result<Option<Body>, Refusal> {
        if is_foreign(from, range) {
            return Err(Refusal::Stale);
        }
        if self.streams.contains_key(&(range, kind)) {
            return Err(Refusal::NameTaken);
        }
        self.streams.insert((range, kind), Stream { fence, ..Stream::default() });
        let stands = self.write(&[&[MANAGE, CREATE], &range.to_be_bytes(), &[kind as u8], &fence.to_be_bytes()]);
        Ok(stands.then_some(Body::Created { request }))
    }

    /// Tests a call of a server on the four streams of a range by their fences.
    fn test_four(&self, from: Actor, range: u64, test: impl Fn(u64) -> bool) -> Result<(), Refusal> {
        if matches!(from, Actor::User(_)) {
            return Err(Refusal::Stale);
        }
        let four = KINDS.map(|kind| self.streams.get(&(range, kind)));
        if four.iter().any(Option::is_none) {
            return Err(Refusal::NoSuchStream);
        }
        let passed = four.iter().flatten().all(|stream| test(stream.fence));
        if passed { Ok(()) } else { Err(Refusal::Stale) }
    }

    fn open(&mut self, from: Actor, range: u64, generation: u64, request: Request) -> Result<Option<Body>, Refusal> {
        self.test_four(from, range, |fence| fence < generation)?;
        fence_four(&mut self.streams, range, generation);
        if !self.write(&[&[MANAGE, OPEN], &range.to_be_bytes(), &generation.to_be_bytes()]) {
            return Ok(None);
        }
        let lists = KINDS.map(|kind| self.told_list(&self.streams[&(range, kind)]));
        Ok(Some(Body::Opened { request, lists: Box::new(lists) }))
    }

    fn told_list(&self, stream: &Stream) -> StreamList {
        let told = |extent: &u64| {
            let of = &self.extents[*extent as usize - 1];
            StreamExtent { extent: *extent, places: of.places, length: of.sealed }
        };
        StreamList { base: stream.base, extents: stream.extents.iter().map(told).collect() }
    }

    fn confirm(&self, from: Actor, range: u64, generation: u64, request: Request) -> Result<Option<Body>, Refusal> {
        self.test_four(from, range, |fence| fence == generation)?;
        Ok(Some(Body::Confirmed { request }))
    }

    fn extend(&mut self, packet: &Packet, effects: &mut Effects) -> Result<Option<Body>, Refusal> {
        let Body::Extend { range, kind, generation, last, places, request } = packet.body else { return Ok(None) };
        if is_foreign(packet.from, range) {
            return Err(Refusal::Stale);
        }
        let stream = self.streams.get(&(range, kind)).ok_or(Refusal::NoSuchStream)?;
        let fence = stream.fence;
        if generation_of(packet.from, generation) != fence {
            return Err(Refusal::Stale);
        }
        if let Some(extent) = stream.extents.last().copied() {
            if last != Some(extent) {
                let places = self.extents[extent as usize - 1].places;
                return Ok(Some(Body::Extended { request, extent, places }));
            }
            if self.is_open(extent) {
                return Err(Refusal::LastOpen);
            }
        }
        if !are_nodes(places) || places.iter().any(|place| *place > self.nodes) {
            return Err(Refusal::BadPick);
        }
        let extent = add_extent(&mut self.streams, &mut self.extents, (range, kind), fence, places).expect("a stream");
        if !self.write(&[&[MANAGE, EXTEND], &range.to_be_bytes(), &[kind as u8], &fence.to_be_bytes(), &places]) {
            return Ok(None);
        }
        let target = self.target;
        to_each(places, effects, || Body::Make { extent, fence, target, places });
        Ok(Some(Body::Extended { request, extent, places }))
    }

    fn trim(&mut self, packet: &Packet) -> Result<Option<Body>, Refusal> {
        let Body::Trim { range, generation, before, to_blob, request } = packet.body else { return Ok(None) };
        if matches!(packet.from, Actor::User(_)) {
            return Err(Refusal::Stale);
        }
        let log = self.streams.get(&(range, Kind::Log)).filter(|_| self.streams.contains_key(&(range, Kind::BlobData)));
        let log = log.ok_or(Refusal::NoSuchStream)?;
        if log.fence != generation {
            return Err(Refusal::Stale);
        }
        if before > log.base {
            if before >= log.base + log.extents.len() as u64 {
                return Err(Refusal::LastOpen);
            }
            trim_log(&mut self.streams, range, before, to_blob);
            if !self.write(&[&[MANAGE, TRIM], &range.to_be_bytes(), &before.to_be_bytes(), &[u8::from(to_blob)]]) {
                return Ok(None);
            }
        }
        Ok(Some(Body::Trimmed { request }))
    }

    fn modify(&mut self, from: Actor, list: &[Modify], request: Request) -> Result<Option<Body>, Refusal> {
        if matches!(from, Actor::User(_)) {
            return Err(Refusal::Stale);
        }
        self.test_modify(list)?;
        list.iter().for_each(|modify| build(&mut self.streams, modify));
        let bytes = modify_bytes(list);
        Ok(self.write(&[&[MANAGE, MODIFY], &bytes]).then_some(Body::Modified { request }))
    }

    /// Whether streams can be built. A split builds each of streams that are there, so none is a source of another here.
    fn test_modify(&self, list: &[Modify]) -> Result<(), Refusal> {
        for modify in list {
            if self.streams.contains_key(&modify.stream) {
                return Err(Refusal::NameTaken);
            }
            let found: Option<Vec<_>> = modify.sources.iter().map(|(name, _)| self.streams.get(name)).collect();
            let sources = found.ok_or(Refusal::NoSuchStream)?;
            if sources.iter().zip(&modify.sources).any(|(stream, (_, generation))| stream.fence != *generation) {
                return Err(Refusal::Stale);
            }
            if sources.iter().filter_map(|stream| stream.extents.last()).any(|last| self.is_open(*last)) {
                return Err(Refusal::LastOpen);
            }
        }
        Ok(())
    }

    fn seal_extent(&mut self, from: Actor, extent: u64, request: Request, effects: &mut Effects) -> Result<Option<Body>, Refusal> {
        let found = self.extent(extent).ok_or(Refusal::NoSuchExtent)?;
        let sealed = found.sealed;
        if sealed.is_none() {
            found.asker = Some((from, request));
        }
        self.remind(extent, effects);
        Ok(sealed.map(|length| Body::SealedIs { request, extent, length }))
    }

    /// Each place is told to have a replica, and to close it.
    fn remind(&mut self, extent: u64, effects: &mut Effects) {
        let target = self.target;
        let Some(&mut Extent { places, fence, sealed, .. }) = self.extent(extent) else { return };
        to_each(places, effects, || Body::Make { extent, fence, target, places });
        to_each(places, effects, || match sealed {
            None => Body::Freeze { extent },
            Some(length) => Body::Seal { extent, length },
        });
    }

    /// What the places of an extent tell.
    fn told(&mut self, from: Actor, body: &Body, effects: &mut Effects) {
        let (Body::Frozen { extent, .. } | Body::IsSealed { extent } | Body::Short { extent, .. }) = *body else { return };
        let Some(of) = self.extent(extent) else { return };
        let Some(place) = of.place(from) else { return };
        match *body {
            Body::Frozen { length, .. } if of.sealed.is_none() => of.frozen[place] = Some(length),
            Body::IsSealed { .. } => of.known_sealed[place] = true,
            Body::Short { length, .. } if of.sealed.is_some() => {
                let Some(sealed) = of.known_sealed.iter().position(|sealed| *sealed) else { return };
                let body = Body::SendTail { extent, from: length, to: of.places[place] };
                effects.send(Actor::Manager, Actor::Node(of.places[sealed]), body);
            }
            _ => {}
        }
    }

    /// Seals an extent at the least length that its places have told.
    pub fn decide(&mut self, extent: u64, effects: &mut Effects) -> Result<(), Refusal> {
        let of = self.extent(extent).ok_or(Refusal::NoSuchExtent)?;
        if of.sealed.is_some() {
            self.remind(extent, effects);
            return Ok(());
        }
        let length = of.frozen.iter().flatten().min().copied().ok_or(Refusal::NoReply)?;
        of.sealed = Some(length);
        let asker = of.asker.take();
        let written = self.device.write(&[&[MANAGE, SEAL], &extent.to_be_bytes(), &length.to_be_bytes()]);
        if written != (Written::Stopped { stands: false }) {
            tell!(effects, "sealed {extent} {length}");
        }
        if written == Written::Stands {
            self.remind(extent, effects);
            if let Some((asker, request)) = asker {
                effects.send(Actor::Manager, asker, Body::SealedIs { request, extent, length });
            }
        }
        self.drop_if_stopped();
        Ok(())
    }

    pub fn stop(&mut self, call: u64, keep: bool) {
        self.device.stop(call, keep);
        self.drop_if_stopped();
    }

    fn drop_if_stopped(&mut self) {
        if !self.device.up {
            (self.streams, self.extents) = (BTreeMap::new(), Vec::new());
        }
    }

    /// Comes back with what its records make.
    pub fn restart(&mut self) {
        self.device.up = true;
        self.streams = first_streams();
        for body in self.device.records().skip(1) {
            replay(&mut self.streams, &mut self.extents, body).expect("a record that the manager wrote");
        }
    }
}

fn to_each(places: Places, effects: &mut Effects, body: impl Fn() -> Body) {
    places.iter().for_each(|place| effects.send(Actor::Manager, Actor::Node(*place), body()));
}

fn fence_four(streams: &mut Streams, range: u64, generation: u64) {
    for kind in KINDS {
        if let Some(stream) = streams.get_mut(&(range, kind)) {
            stream.fence = generation;
        }
    }
}

/// One more extent at the end of a stream.
fn add_extent(streams: &mut Streams, extents: &mut Vec<Extent>, name: (u64, Kind), fence: u64, places: Places) -> Option<u64> {
    let new = Extent { places, fence, sealed: None, frozen: [None; 3], known_sealed: [false; 3], asker: None };
    extents.push(new);
    let extent = extents.len() as u64;
    streams.get_mut(&name)?.extents.push(extent);
    Some(extent)
}

/// The log's extents below an index leave it, and stand at the end of the blob stream where they are to be kept.
fn trim_log(streams: &mut Streams, range: u64, before: u64, to_blob: bool) -> Option<()> {
    let log = streams.get_mut(&(range, Kind::Log))?;
    let gone: Vec<u64> = log.extents.drain(..(before - log.base) as usize).collect();
    log.base = before;
    if to_blob {
        streams.get_mut(&(range, Kind::BlobData))?.extents.extend(gone);
    }
    Some(())
}

/// A stream is the lists of its sources joined.
fn build(streams: &mut Streams, modify: &Modify) {
    let sources = modify.sources.iter().filter_map(|(name, _)| streams.get(name));
    let base = sources.clone().next().map_or(0, |first| first.base);
    let extents = sources.flat_map(|source| &source.extents).copied().collect();
    let fence = modify.sources.iter().map(|(_, generation)| *generation).max().unwrap_or(0);
    streams.insert(modify.stream, Stream { base, fence, extents });
}

fn modify_bytes(list: &[Modify]) -> Vec<u8> {
    let mut bytes = vec![list.len() as u8];
    let name = |(range, kind): (u64, Kind), to: &mut Vec<u8>| {
        to.extend_from_slice(&range.to_be_bytes());
        to.push(kind as u8);
    };
    for Modify { stream, sources } in list {
        name(*stream, &mut bytes);
        bytes.push(sources.len() as u8);
        for (source, generation) in sources {
            name(*source, &mut bytes);
            bytes.extend_from_slice(&generation.to_be_bytes());
        }
    }
    bytes
}

fn read_name(reader: &mut Reader) -> Option<(u64, Kind)> {
    Some((reader.u64()?, *KINDS.get(usize::from(reader.u8()?))?))
}

fn read_modify(reader: &mut Reader) -> Option<Modify> {
    let (stream, count) = (read_name(reader)?, reader.u8()?);
    let sources = (0..count).map(|_| Some((read_name(reader)?, reader.u64()?))).collect::<Option<_>>()?;
    Some(Modify { stream, sources })
}

/// What a record makes of the streams and the extents.
fn replay(streams: &mut Streams, extents: &mut Vec<Extent>, body: &[u8]) -> Option<()> {
    let mut reader = Reader::new(&body[1..]);
    match reader.u8()? {
        CREATE => {
            let (name, fence) = (read_name(&mut reader)?, reader.u64()?);
            streams.insert(name, Stream { fence, ..Stream::default() });
        }
        OPEN => fence_four(streams, reader.u64()?, reader.u64()?),
        EXTEND => {
            let (name, fence, places) = (read_name(&mut reader)?, reader.u64()?, reader.number()?);
            add_extent(streams, extents, name, fence, places)?;
        }
        SEAL => {
            let (extent, length) = (reader.u64()?, reader.u32()?);
            extents.get_mut(extent as usize - 1)?.sealed = Some(length);
        }
        TRIM => {
            let (range, before, to_blob) = (reader.u64()?, reader.u64()?, reader.u8()? == 1);
            trim_log(streams, range, before, to_blob)?;
        }
        MODIFY => {
            for _ in 0..reader.u8()? {
                let modify = read_modify(&mut reader)?;
                build(streams, &modify);
            }
        }
        _ => return None,
    }
    Some(())
}
