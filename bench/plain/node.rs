//! An extent node: its replicas, and the file of their records.
use crate::bytes::{Bytes, Group, Reader, MAX_BLOCK, MAX_BLOCKS};
use crate::device::{Device, Written};
use crate::effects::{tell, Effects};
use crate::packet::{Actor, Body, Packet, Place, Places, Request, NO_REQUEST};
use crate::refusal::Refusal;
use std::collections::{BTreeMap, VecDeque};
use std::rc::Rc;

/// So many appends of an extent may wait for its secondaries.
const MOST_WAITING: usize = 256;

#[derive(Clone, Copy, PartialEq, Eq)]
enum Phase {
    Open,
    Frozen,
    Sealed,
}

/// An append that waits for the secondaries: who asked, and where its group ends.
struct Waiting {
    asker: Actor,
    request: Request,
    end: u32,
}

/// The check that is under way, with the lengths that the secondaries have told for it.
struct Checking {
    generation: u64,
    asker: Actor,
    request: Request,
    told: [Option<u32>; 2],
}

struct Replica {
    places: Places,
    target: u32,
    fence: u64,
    phase: Phase,
    groups: Vec<Group>,
    ends: Vec<u32>,
    /// At the primary: the last groups, how long each secondary is known to be, and the check.
    waiting: VecDeque<Waiting>,
    had: [u32; 2],
    check: Option<Box<Checking>>,
}

impl Replica {
    fn new(places: Places, target: u32, fence: u64) -> Replica {
        let (groups, ends, waiting) = (Vec::new(), Vec::new(), VecDeque::new());
        Replica { places, target, fence, phase: Phase::Open, groups, ends, waiting, had: [0; 2], check: None }
    }

    fn length(&self) -> u32 {
        self.ends.last().copied().unwrap_or(0)
    }

    fn add(&mut self, group: Group) {
        self.ends.push(self.length() + group.size());
        self.groups.push(group);
    }

    /// How many groups end at a length, if one does.
    fn boundary(&self, length: u32) -> Option<usize> {
        if length == 0 {
            return Some(0);
        }
        self.ends.binary_search(&length).ok().map(|last| last + 1)
    }

    /// Takes no more appends, and drops what waits.
    fn close(&mut self, phase: Phase) {
        self.phase = phase;
        self.waiting.clear();
        self.had = [0; 2];
        self.check = None;
    }

    fn seal(&mut self, groups: usize) {
        self.groups.truncate(groups);
        self.ends.truncate(groups);
        self.close(Phase::Sealed);
    }

    /// Which of the two secondaries a node is.
    fn secondary(&self, from: Actor) -> Option<usize> {
        self.places[1..].iter().position(|place| Actor::Node(*place) == from)
    }

    fn is_from_primary(&self, from: Actor) -> bool {
        from == Actor::Node(self.places[0])
    }

    /// So many bytes of the text from an offset on.
    fn read(&self, offset: u32, length: u32) -> Bytes {
        let first = self.ends.partition_point(|end| *end <= offset);
        let Some(group) = self.groups.get(first) else { return Bytes::from(&[][..]) };
        let before = (offset - (self.ends[first] - group.size())) as usize;
        if offset + length <= self.ends[first] {
            return group.part(before, length as usize);
        }
        let (mut joined, mut skip) = (Vec::with_capacity(length as usize), before);
        for group in &self.groups[first..] {
            group.copy(skip, length as usize - joined.len(), &mut joined);
            skip = 0;
        }
        Bytes::of(Rc::from(joined))
    }

    fn append_refusal(&self, node: u8, generation: u64, group: &Group) -> Option<Refusal> {
        let is_bad = |block: &[u8]| block.is_empty() || block.len() > MAX_BLOCK;
        if node != self.places[0] {
            Some(Refusal::NotPrimary)
        } else if self.phase != Phase::Open {
            Some(Refusal::NotOpen)
        } else if generation < self.fence {
            Some(Refusal::Stale)
        } else if group.count() == 0 || group.count() > MAX_BLOCKS {
            Some(Refusal::TooManyBlocks)
        } else if group.blocks().any(is_bad) {
            Some(Refusal::BadBlock)
        } else if self.length() >= self.target {
            Some(Refusal::ExtentFull)
        } else if self.waiting.len() >= MOST_WAITING {
            Some(Refusal::Busy)
        } else {
            None
        }
    }
}

pub struct Node {
    number: u8,
    pub device: Device,
    replicas: BTreeMap<u64, Replica>,
}

/// A user counts with generation 0.
pub fn generation_of(from: Actor, generation: u64) -> u64 {
    if matches!(from, Actor::User(_)) { 0 } else { generation }
}

fn is_target(target: u32) -> bool {
    (4_096..=16_777_216).contains(&target)
}

pub fn are_nodes(places: Places) -> bool {
    let [first, second, third] = places;
    places.iter().all(|place| (1..=12).contains(place)) && first != second && first != third && second != third
}

impl Node {
    pub fn new(number: u8) -> Node {
        Node { number, device: Device::new(), replicas: BTreeMap::new() }
    }

    fn me(&self) -> Actor {
        Actor::Node(self.number)
    }

    /// What the node does with a packet.
    pub fn take(&mut self, packet: &Packet, effects: &mut Effects) {
        let refused = match &packet.body {
            Body::Append { .. } => self.append(packet, effects),
            Body::Put { .. } => self.put(packet, effects),
            &Body::Have { extent, length } => self.have(packet.from, extent, length, effects),
            &Body::Check { extent, generation, request } => self.check(packet.from, extent, generation, request, effects),
            &Body::Probe { extent, generation } => self.probe(packet.from, extent, generation, effects),
            &Body::Probed { extent, generation, length } => self.probed(packet.from, extent, generation, length, effects),
            &Body::ReadAt { place, request } => self.read_at(packet.from, place, request, effects),
            &Body::ReadGroups { .. } => self.read_groups(packet, effects),
            Body::Tail { .. } => self.tail(packet, effects),
            body if packet.from == Actor::Manager => self.told(body, effects),
            _ => Ok(()),
        };
        if let Err(refusal) = refused {
            effects.refuse(self.me(), packet.from, request_of(&packet.body), refusal);
        }
        self.drop_if_stopped();
    }

    /// What the manager tells.
    fn told(&mut self, body: &Body, effects: &mut Effects) -> Result<(), Refusal> {
        match *body {
            Body::Make { extent, fence, target, places } => self.make(extent, fence, target, places),
            Body::Freeze { extent } => self.freeze(extent, effects),
            Body::Seal { extent, length } => self.seal(extent, length, effects),
            Body::SendTail { extent, from, to } => self.send_tail(extent, from, to, effects),
            _ => Ok(()),
        }
    }

    fn replica(&mut self, extent: u64) -> Result<&mut Replica, Refusal> {
        self.replicas.get_mut(&extent).ok_or(Refusal::NoSuchExtent)
    }

    fn make(&mut self, extent: u64, fence: u64, target: u32, places: Places) -> Result<(), Refusal> {
        let fits = places.contains(&self.number) && are_nodes(places) && is_target(target);
        if self.replicas.contains_key(&extent) || !fits {
            return Ok(());
        }
        let fields: [&[u8]; 5] = [&[1], &extent.to_be_bytes(), &fence.to_be_bytes(), &target.to_be_bytes(), &places];
        if self.device.write(&fields) == Written::Stands {
            self.replicas.insert(extent, Replica::new(places, target, fence));
        }
        Ok(())
    }

    fn append(&mut self, packet: &Packet, effects: &mut Effects) -> Result<(), Refusal> {
        let Body::Append { extent, generation, ref group, request } = packet.body else { return Ok(()) };
        let (me, number) = (self.me(), self.number);
        let replica = self.replicas.get_mut(&extent).ok_or(Refusal::NoSuchExtent)?;
        if let Some(refusal) = replica.append_refusal(number, generation_of(packet.from, generation), group) {
            return Err(refusal);
        }
        let offset = replica.length();
        if write_group(&mut self.device, extent, offset, group) != Written::Stands {
            return Ok(());
        }
        replica.add(group.clone());
        replica.waiting.push_back(Waiting { asker: packet.from, request, end: replica.length() });
        for place in &replica.places[1..] {
            effects.send(me, Actor::Node(*place), Body::Put { extent, offset, group: group.clone() });
        }
        Ok(())
    }

    fn put(&mut self, packet: &Packet, effects: &mut Effects) -> Result<(), Refusal> {
        let Body::Put { extent, offset, ref group } = packet.body else { return Ok(()) };
        let me = self.me();
        let replica = self.replicas.get_mut(&extent).ok_or(Refusal::NoSuchExtent)?;
        if !replica.is_from_primary(packet.from) {
            return Ok(());
        }
        if replica.phase != Phase::Open {
            return Err(Refusal::NotOpen);
        }
        if offset == replica.length() && offset < replica.target {
            if write_group(&mut self.device, extent, offset, group) != Written::Stands {
                return Ok(());
            }
            replica.add(group.clone());
        }
        effects.send(me, packet.from, Body::Have { extent, length: replica.length() });
        Ok(())
    }

    /// A primary hears how long a secondary is, and acknowledges what both have.
    fn have(&mut self, from: Actor, extent: u64, length: u32, effects: &mut Effects) -> Result<(), Refusal> {
        let (me, number) = (self.me(), self.number);
        let replica = self.replica(extent)?;
        let secondary = replica.secondary(from).filter(|_| number == replica.places[0] && replica.phase == Phase::Open);
        let Some(secondary) = secondary else { return Ok(()) };
        replica.had[secondary] = replica.had[secondary].max(length);
        let both = replica.had[0].min(replica.had[1]);
        while let Some(first) = replica.waiting.front().filter(|first| first.end <= both) {
            let group = &replica.groups[replica.groups.len() - replica.waiting.len()];
            let offset = first.end - group.size();
            effects.acked(extent, offset, group.clone());
            effects.send(me, first.asker, Body::Appended { request: first.request, offset });
            replica.waiting.pop_front();
        }
        Ok(())
    }

    /// Raises the fence of an extent to a generation that is not below it, on disk first; false where the node stops.
    fn raise(&mut self, extent: u64, generation: u64) -> Result<bool, Refusal> {
        let replica = self.replicas.get_mut(&extent).ok_or(Refusal::NoSuchExtent)?;
        if replica.fence == generation {
            return Ok(true);
        }
        replica.fence = generation;
        let fields: [&[u8]; 3] = [&[3], &extent.to_be_bytes(), &generation.to_be_bytes()];
        Ok(self.device.write(&fields) == Written::Stands)
    }

    fn check(&mut self, from: Actor, extent: u64, generation: u64, request: Request, effects: &mut Effects) -> Result<(), Refusal> {
        let (me, number, generation) = (self.me(), self.number, generation_of(from, generation));
        let replica = self.replica(extent)?;
        if number != replica.places[0] {
            return Err(Refusal::NotPrimary);
        }
        if generation < replica.fence {
            return Err(Refusal::Stale);
        }
        if replica.phase != Phase::Open {
            effects.send(me, from, Body::Checked { request, length: None });
            return Ok(());
        }
        if !self.raise(extent, generation)? {
            return Ok(());
        }
        let replica = self.replica(extent)?;
        replica.check = Some(Box::new(Checking { generation, asker: from, request, told: [None; 2] }));
        for place in &replica.places[1..] {
            effects.send(me, Actor::Node(*place), Body::Probe { extent, generation });
        }
        Ok(())
    }

    fn probe(&mut self, from: Actor, extent: u64, generation: u64, effects: &mut Effects) -> Result<(), Refusal> {
        let me = self.me();
        let replica = self.replica(extent)?;
        if !replica.is_from_primary(from) {
            return Ok(());
        }
        if replica.phase != Phase::Open {
            return Err(Refusal::NotOpen);
        }
        if generation < replica.fence {
            return Err(Refusal::Stale);
        }
        let length = replica.length();
        if self.raise(extent, generation)? {
            effects.send(me, from, Body::Probed { extent, generation, length });
        }
        Ok(())
    }

    fn probed(&mut self, from: Actor, extent: u64, generation: u64, length: u32, effects: &mut Effects) -> Result<(), Refusal> {
        let me = self.me();
        let replica = self.replica(extent)?;
        let secondary = replica.secondary(from);
        let own = (replica.phase == Phase::Open).then(|| replica.length());
        let Some(check) = replica.check.as_mut().filter(|check| check.generation == generation) else { return Ok(()) };
        let Some(secondary) = secondary else { return Ok(()) };
        check.told[secondary] = Some(length);
        if let [Some(second), Some(third)] = check.told {
            let length = own.filter(|own| second == *own && third == *own);
            effects.send(me, check.asker, Body::Checked { request: check.request, length });
            replica.check = None;
        }
        Ok(())
    }

    fn read_at(&mut self, from: Actor, place: Place, request: Request, effects: &mut Effects) -> Result<(), Refusal> {
        let (me, number) = (self.me(), self.number);
        let Place { extent, offset, length } = place;
        let replica = self.replica(extent)?;
        if u64::from(offset) + u64::from(length) > u64::from(replica.length()) {
            return Err(Refusal::PastEnd);
        }
        tell!(effects, "seen {extent} {number} {offset} {length}");
        effects.send(me, from, Body::Bytes { request, extent, offset, bytes: replica.read(offset, length) });
        Ok(())
    }

    fn read_groups(&mut self, packet: &Packet, effects: &mut Effects) -> Result<(), Refusal> {
        let Body::ReadGroups { extent, upto, sealed, request } = packet.body else { return Ok(()) };
        let (me, number) = (self.me(), self.number);
        let replica = self.replica(extent)?;
        let is_sealed = replica.phase == Phase::Sealed;
        if sealed && !is_sealed {
            return Err(Refusal::NotSealed);
        }
        let count = replica.boundary(upto).ok_or(Refusal::PastEnd)?;
        if is_sealed && upto == replica.length() {
            tell!(effects, "content {extent} {number} {upto} {count}");
        } else {
            tell!(effects, "seen {extent} {number} 0 {upto}");
        }
        let groups = Rc::from(&replica.groups[..count]);
        effects.send(me, packet.from, Body::Groups { request, length: upto, groups });
        Ok(())
    }

    /// Takes no more appends, on disk first; false where the node stops.
    fn close(&mut self, extent: u64) -> Result<bool, Refusal> {
        self.replica(extent)?.close(Phase::Frozen);
        Ok(self.device.write(&[&[4], &extent.to_be_bytes()]) == Written::Stands)
    }

    fn freeze(&mut self, extent: u64, effects: &mut Effects) -> Result<(), Refusal> {
        let me = self.me();
        let replica = self.replica(extent)?;
        let (phase, length) = (replica.phase, replica.length());
        if phase == Phase::Open && !self.close(extent)? {
            return Ok(());
        }
        let body = if phase == Phase::Sealed { Body::IsSealed { extent } } else { Body::Frozen { extent, length } };
        effects.send(me, Actor::Manager, body);
        Ok(())
    }

    fn seal(&mut self, extent: u64, length: u32, effects: &mut Effects) -> Result<(), Refusal> {
        let me = self.me();
        let replica = self.replica(extent)?;
        let (phase, own) = (replica.phase, replica.length());
        if phase == Phase::Sealed {
            if own != length {
                return Err(Refusal::NotOpen);
            }
        } else if own < length {
            if phase == Phase::Frozen || self.close(extent)? {
                effects.send(me, Actor::Manager, Body::Short { extent, length: own });
            }
            return Ok(());
        } else {
            let groups = replica.boundary(length).ok_or(Refusal::PastEnd)?;
            replica.seal(groups);
            if self.device.write(&[&[5], &extent.to_be_bytes(), &length.to_be_bytes()]) != Written::Stands {
                return Ok(());
            }
        }
        effects.send(me, Actor::Manager, Body::IsSealed { extent });
        Ok(())
    }

    fn send_tail(&mut self, extent: u64, from: u32, to: u8, effects: &mut Effects) -> Result<(), Refusal> {
        let me = self.me();
        let replica = self.replica(extent)?;
        if replica.phase != Phase::Sealed {
            return Err(Refusal::NotSealed);
        }
        let first = replica.boundary(from).ok_or(Refusal::PastEnd)?;
        let (length, groups) = (replica.length(), Rc::from(&replica.groups[first..]));
        effects.send(me, Actor::Node(to), Body::Tail { extent, from, length, groups });
        Ok(())
    }

    fn tail(&mut self, packet: &Packet, effects: &mut Effects) -> Result<(), Refusal> {
        let Body::Tail { extent, from, length, ref groups } = packet.body else { return Ok(()) };
        let me = self.me();
        let replica = self.replicas.get_mut(&extent).ok_or(Refusal::NoSuchExtent)?;
        let is_place = replica.places.iter().any(|place| Actor::Node(*place) == packet.from);
        let size: u32 = groups.iter().map(Group::size).sum();
        let fits = replica.phase == Phase::Frozen && replica.length() == from && !groups.is_empty() && from + size == length;
        if !is_place || !fits {
            return Ok(());
        }
        let (extent_bytes, from_bytes, length_bytes) = (extent.to_be_bytes(), from.to_be_bytes(), length.to_be_bytes());
        let count = (groups.len() as u32).to_be_bytes();
        let mut fields: Vec<&[u8]> = vec![&[6], &extent_bytes, &from_bytes, &length_bytes, &count];
        fields.extend(groups.iter().map(Group::spelling));
        if self.device.write(&fields) == Written::Stands {
            groups.iter().for_each(|group| replica.add(group.clone()));
            replica.close(Phase::Sealed);
            effects.send(me, Actor::Manager, Body::IsSealed { extent });
        }
        Ok(())
    }

    /// What the node has of an extent.
    pub fn show(&self, extent: u64, effects: &mut Effects) {
        let number = self.number;
        if !self.device.up {
            tell!(effects, "replica {number} {extent} stopped");
        } else if let Some(replica) = self.replicas.get(&extent) {
            let phase = match replica.phase {
                Phase::Open => "open",
                Phase::Frozen => "frozen",
                Phase::Sealed => "sealed",
            };
            tell!(effects, "replica {number} {extent} {phase} {} {}", replica.length(), replica.fence);
        } else {
            tell!(effects, "replica {number} {extent} none");
        }
    }

    pub fn stop(&mut self, call: u64, keep: bool) {
        self.device.stop(call, keep);
        self.drop_if_stopped();
    }

    fn drop_if_stopped(&mut self) {
        if !self.device.up {
            self.replicas = BTreeMap::new();
        }
    }

    /// Comes back with what its records make.
    pub fn restart(&mut self) {
        self.device.up = true;
        for body in self.device.records() {
            replay(&mut self.replicas, body).expect("a record that this node wrote");
        }
    }
}

fn write_group(device: &mut Device, extent: u64, offset: u32, group: &Group) -> Written {
    device.write(&[&[2], &extent.to_be_bytes(), &offset.to_be_bytes(), group.spelling()])
}

/// What a record makes of the replicas.
fn replay(replicas: &mut BTreeMap<u64, Replica>, body: &[u8]) -> Option<()> {
    let mut reader = Reader::new(body);
    let (kind, extent) = (reader.u8()?, reader.u64()?);
    if kind == 1 {
        let (fence, target, places) = (reader.u64()?, reader.u32()?, reader.number()?);
        replicas.insert(extent, Replica::new(places, target, fence));
        return Some(());
    }
    let replica = replicas.get_mut(&extent)?;
    match kind {
        2 => {
            reader.u32()?;
            replica.add(Group::read(reader.rest())?.0);
        }
        3 => replica.fence = reader.u64()?,
        4 => replica.close(Phase::Frozen),
        5 => replica.seal(replica.boundary(reader.u32()?)?),
        6 => {
            reader.u64()?;
            let (count, mut rest) = (reader.u32()?, reader.rest());
            for _ in 0..count {
                let (group, behind) = Group::read(rest)?;
                replica.add(group);
                rest = behind;
            }
            replica.close(Phase::Sealed);
        }
        _ => return None,
    }
    Some(())
}

/// The number of a request to a node, which a refusal repeats.
fn request_of(body: &Body) -> Request {
    match *body {
        Body::Append { request, .. }
        | Body::Check { request, .. }
        | Body::ReadAt { request, .. }
        | Body::ReadGroups { request, .. } => request,
        _ => NO_REQUEST,
    }
}
