//! A partition server: the ranges that it holds, and to which of them an answer goes.
use crate::effects::Effects;
use crate::packet::{Actor, Body, Packet, Places, Request};
use crate::range::{Range, Step};
use crate::refusal::Refusal;
use std::collections::BTreeMap;
use std::rc::Rc;

/// What all ranges of a server share.
pub struct Shared {
    number: u8,
    session: u32,
    /// The number of the next request.
    count: u64,
    pub moment: u64,
    /// The nodes that new extents are made on.
    pub pick: Places,
    pub batch: usize,
}

/// A step of one range at its server.
pub struct Context<'a> {
    pub server: &'a mut Shared,
    pub effects: &'a mut Effects,
    slot: u32,
}

impl Context<'_> {
    /// The number of the next request.
    pub fn request(&mut self) -> Request {
        let request = Request { number: self.server.count, session: self.server.session, slot: self.slot };
        self.server.count += 1;
        request
    }

    pub fn send(&mut self, to: Actor, body: Body) {
        self.effects.send(Actor::Server(self.server.number), to, body);
    }

    pub fn refuse(&mut self, to: Actor, request: Request, refusal: Refusal) {
        self.send(to, Body::Refused { request, refusal });
    }
}

pub struct Server {
    pub up: bool,
    shared: Shared,
    /// The slots of ranges by their numbers. A slot stays a range's, also once that has gone.
    by_number: BTreeMap<u64, u32>,
    slots: Vec<Option<Box<Range>>>,
}

/// The number that an answer to a server repeats.
fn answered(body: &Body) -> Option<Request> {
    match *body {
        Body::Appended { request, .. }
        | Body::Refused { request, .. }
        | Body::Checked { request, .. }
        | Body::SealedIs { request, .. }
        | Body::Bytes { request, .. }
        | Body::Groups { request, .. }
        | Body::Created { request }
        | Body::Opened { request, .. }
        | Body::Confirmed { request }
        | Body::Extended { request, .. }
        | Body::Trimmed { request }
        | Body::Modified { request }
        | Body::SplitBegun { request, .. }
        | Body::SplitDone { request } => Some(request),
        _ => None,
    }
}

impl Server {
    pub fn new(number: u8, batch: usize) -> Server {
        let shared = Shared { number, session: 1, count: 1, moment: 0, pick: [1, 2, 3], batch };
        Server { up: true, shared, by_number: BTreeMap::new(), slots: Vec::new() }
    }

    /// What the server does with a packet.
    pub fn take(&mut self, packet: &Packet, effects: &mut Effects) {
        match packet.body {
            Body::Assign { range, generation, until } => self.assign(range, generation, until, effects),
            Body::Renew { range, generation, until } => self.renew(range, generation, until),
            Body::Transact { range, ref changes, request } => {
                self.at_range(range, packet, request, effects, |range, context| {
                    range.transact(context, packet.from, request, changes)
                });
            }
            Body::Get { range, ref key, request } => {
                self.at_range(range, packet, request, effects, |range, context| {
                    range.get(context, packet.from, request, key)
                });
            }
            ref body => self.answer(body, effects),
        }
    }

    fn range(&mut self, number: u64) -> Option<&mut Range> {
        self.slots[*self.by_number.get(&number)? as usize].as_deref_mut()
    }

    /// A step of the range in a slot, and what its split then does. A range that goes tells those who wait there.
    fn step(&mut self, slot: u32, effects: &mut Effects, rule: impl FnOnce(&mut Range, &mut Context) -> Step) -> bool {
        let Some(range) = self.slots.get_mut(slot as usize).and_then(Option::as_deref_mut) else { return false };
        let mut context = Context { server: &mut self.shared, effects, slot };
        if rule(range, &mut context).is_err() {
            range.refuse_all(&mut context);
            self.slots[slot as usize] = None;
        }
        true
    }

    /// What a user asks of a range.
    fn at_range(
        &mut self,
        range: u64,
        packet: &Packet,
        request: Request,
        effects: &mut Effects,
        rule: impl FnOnce(&mut Range, &mut Context) -> Step,
    ) {
        let slot = self.by_number.get(&range).copied();
        let stepped = slot.is_some_and(|slot| {
            self.step(slot, effects, |range, context| {
                rule(range, context)?;
                range.follow_split(context);
                Ok(())
            })
        });
        if !stepped {
            effects.refuse(Actor::Server(self.shared.number), packet.from, request, Refusal::NotOwner);
        }
    }

    fn answer(&mut self, body: &Body, effects: &mut Effects) {
        let Some(request) = answered(body).filter(|request| request.session == self.shared.session) else { return };
        self.step(request.slot, effects, |range, context| {
            if let Some(step) = range.answer(context, request, body) {
                step?;
                range.follow_split(context);
            } else if range.split.as_ref().is_some_and(|split| split.awaits(request)) {
                range.split_reply(context, body)?;
            }
            Ok(())
        });
    }

    /// What was known of a range goes where its generation is a newer one, and its streams are opened.
    fn assign(&mut self, number: u64, generation: u64, until: u64, effects: &mut Effects) {
        if self.range(number).is_some_and(|range| range.generation >= generation) {
            return;
        }
        let next = self.slots.len() as u32;
        let slot = *self.by_number.entry(number).or_insert(next);
        if slot == next {
            self.slots.push(None);
        }
        let mut context = Context { server: &mut self.shared, effects, slot };
        if let Some(known) = &self.slots[slot as usize] {
            known.refuse_all(&mut context);
        }
        self.slots[slot as usize] = Some(Box::new(Range::assigned(&mut context, number, generation, until)));
    }

    fn renew(&mut self, number: u64, generation: u64, until: u64) {
        if let Some(range) = self.range(number).filter(|range| range.generation == generation) {
            range.until = range.until.max(until);
        }
    }

    /// A step that is told to the server, and not asked by a packet.
    fn told(&mut self, number: u64, effects: &mut Effects, rule: impl FnOnce(&mut Range, &mut Context)) {
        let Some(slot) = self.by_number.get(&number).copied() else { return };
        self.step(slot, effects, |range, context| {
            rule(range, context);
            Ok(())
        });
    }

    pub fn give_up(&mut self, number: u64, pick: Places, effects: &mut Effects) -> Result<(), Refusal> {
        self.range(number).ok_or(Refusal::NotOwner)?;
        self.shared.pick = pick;
        self.told(number, effects, |range, context| {
            range.give_up(context);
            range.split_gives_up(context);
        });
        Ok(())
    }

    pub fn checkpoint(&mut self, number: u64, combine: bool, effects: &mut Effects) -> Result<(), Refusal> {
        let range = self.range(number).ok_or(Refusal::NotOwner)?;
        if let Some(refusal) = range.checkpoint_refusal() {
            return Err(refusal);
        }
        if range.split.is_some() {
            return Err(Refusal::Busy);
        }
        self.told(number, effects, |range, context| range.begin_checkpoint(context, combine));
        Ok(())
    }

    pub fn split(&mut self, number: u64, key: &Rc<[u8]>, effects: &mut Effects) -> Result<(), Refusal> {
        let range = self.range(number).ok_or(Refusal::NotOwner)?;
        if let Some(refusal) = range.split_refusal(key) {
            return Err(refusal);
        }
        self.told(number, effects, |range, context| range.begin_split(context, key));
        Ok(())
    }

    /// A moment that goes back changes nothing.
    pub fn show_moment(&mut self, now: u64) {
        self.shared.moment = self.shared.moment.max(now);
    }

    /// A server has no device: it stops at once, or not at all.
    pub fn stop(&mut self, call: u64) {
        if call == 0 {
            self.up = false;
            (self.by_number, self.slots) = (BTreeMap::new(), Vec::new());
        }
    }

    /// Starts again under a session of its own, with no range.
    pub fn restart(&mut self, now: u64) {
        let Shared { number, session, batch, .. } = self.shared;
        self.shared = Shared { number, session: session + 1, count: 1, moment: now, pick: [1, 2, 3], batch };
        self.up = true;
    }
}
