//! A split of a range at a key, as its server carries it through.
use crate::bytes::Bytes;
use crate::client::{Client, News};
use crate::formats::{record_group, Item};
use crate::packet::{Actor, Body, Request};
use crate::range::{Gone, Pause, Range, Stage, Step};
use crate::refusal::Refusal;
use crate::server::Context;
use crate::streams::{Kind, Modify, StreamList, KINDS};
use std::rc::Rc;

/// What the split waits for.
enum Phase {
    Begin(Request),
    Checkpoint,
    Queue,
    Record,
    Seal(Kind, Request),
    Build(Request),
    /// The keys of the lower range are appended to its metadata, or those of the higher one.
    Keys { is_low: bool, client: Client },
    Complete(Request),
}

pub struct Split {
    key: Rc<[u8]>,
    low: u64,
    high: u64,
    phase: Phase,
}

impl Split {
    pub fn awaits(&self, answered: Request) -> bool {
        match &self.phase {
            Phase::Checkpoint | Phase::Queue | Phase::Record => false,
            Phase::Keys { client, .. } => client.awaits(answered),
            Phase::Begin(request) | Phase::Seal(_, request) | Phase::Build(request) | Phase::Complete(request) => {
                *request == answered
            }
        }
    }
}

impl Range {
    /// Why no split begins.
    pub fn split_refusal(&self, key: &[u8]) -> Option<Refusal> {
        if self.stage != Stage::Serving {
            Some(Refusal::Loading)
        } else if self.pause == Pause::On {
            Some(Refusal::Paused)
        } else if self.split.is_some() || self.checkpoint.is_some() || self.fixed.is_some() {
            Some(Refusal::Busy)
        } else if !self.said.keys.is_split_by(key) {
            Some(Refusal::BadSplitKey)
        } else {
            None
        }
    }

    pub fn begin_split(&mut self, context: &mut Context, key: &Rc<[u8]>) {
        let request = context.request();
        self.split = Some(Box::new(Split { key: Rc::clone(key), low: 0, high: 0, phase: Phase::Begin(request) }));
        self.send_begin(context, key, request);
    }

    fn send_begin(&self, context: &mut Context, key: &Rc<[u8]>, request: Request) {
        let (range, generation, key) = (self.number, self.generation, Rc::clone(key));
        context.send(Actor::Map, Body::BeginSplit { range, generation, key, request });
    }

    fn list(&mut self, kind: Kind) -> &mut StreamList {
        match kind {
            Kind::Metadata => &mut self.metadata.list,
            Kind::Log => &mut self.log.list,
            Kind::RowData => &mut self.rows.list,
            Kind::BlobData => &mut self.blob_data,
        }
    }

    /// What follows a step of the range: its checkpoint has ended, no transaction waits any more, or the split's record stands.
    pub fn follow_split(&mut self, context: &mut Context) {
        let Some(mut split) = self.split.take() else { return };
        match split.phase {
            Phase::Checkpoint if self.checkpoint.is_none() => self.drain(context, &mut split),
            Phase::Queue => self.drain(context, &mut split),
            Phase::Record if self.metadata.is_idle() => {
                let (low, high, key) = (split.low, split.high, Bytes::of(Rc::clone(&split.key)));
                self.said.take(Item::SplitStatus { low, high, key });
                self.seal_next(context, &mut split, &KINDS);
            }
            _ => {}
        }
        self.split = Some(split);
    }

    /// Once no transaction waits the range is paused, and its metadata says that it is split.
    fn drain(&mut self, context: &mut Context, split: &mut Split) {
        if !self.is_drained() {
            (self.pause, split.phase) = (Pause::AfterQueue, Phase::Queue);
            return;
        }
        (self.pause, split.phase) = (Pause::On, Phase::Record);
        let item = Item::SplitStatus { low: split.low, high: split.high, key: Bytes::of(Rc::clone(&split.key)) };
        let group = record_group(&mut context.effects.buffer, self.said.next, &item);
        self.metadata.append(context, group);
    }

    /// The first open last extent of these streams is to be sealed; where none is open the streams are built.
    fn seal_next(&mut self, context: &mut Context, split: &mut Split, kinds: &[Kind]) {
        let open = kinds.iter().find_map(|kind| Some((*kind, self.list(*kind).open_last()?.extent)));
        let request = context.request();
        if let Some((kind, extent)) = open {
            split.phase = Phase::Seal(kind, request);
            context.send(Actor::Manager, Body::SealExtent { extent, request });
        } else {
            split.phase = Phase::Build(request);
            self.send_build(context, split, request);
        }
    }

    /// The four streams of the lower range, then those of the higher one, each from the range's own of its kind.
    fn send_build(&self, context: &mut Context, split: &Split, request: Request) {
        let built = |side: u64| {
            KINDS.map(|kind| Modify { stream: (side, kind), sources: vec![((self.number, kind), self.generation)] })
        };
        let list = [split.low, split.high].into_iter().flat_map(built).collect();
        context.send(Actor::Manager, Body::MultiModify { list, request });
    }

    /// Appends the keys of one of the two ranges to its metadata.
    fn say_keys(&mut self, context: &mut Context, split: &mut Split, is_low: bool) {
        let key = Bytes::of(Rc::clone(&split.key));
        let (number, keys) = if is_low {
            (split.low, self.said.keys.below(key))
        } else {
            (split.high, self.said.keys.from(key))
        };
        let group = record_group(&mut context.effects.buffer, self.said.next, &Item::Ranges(keys));
        let mut client = Client::new(number, Kind::Metadata, self.generation, self.metadata.list.clone());
        client.append(context, group);
        split.phase = Phase::Keys { is_low, client };
    }

    fn complete(&mut self, context: &mut Context, split: &mut Split) {
        let request = context.request();
        split.phase = Phase::Complete(request);
        self.send_complete(context, request);
    }

    fn send_complete(&self, context: &mut Context, request: Request) {
        context.send(Actor::Map, Body::CompleteSplit { range: self.number, generation: self.generation, request });
    }

    /// An answer that the split waits for.
    pub fn split_reply(&mut self, context: &mut Context, body: &Body) -> Step {
        let Some(mut split) = self.split.take() else { return Ok(()) };
        let step = self.split_step(context, &mut split, body);
        self.split = Some(split);
        step
    }

    fn split_step(&mut self, context: &mut Context, split: &mut Split, body: &Body) -> Step {
        if let Phase::Keys { is_low, ref mut client } = split.phase {
            match client.reply(context, body) {
                Some(News::Fenced) => return Err(Gone),
                Some(News::Appended { .. }) if is_low => self.say_keys(context, split, false),
                Some(News::Appended { .. }) => self.complete(context, split),
                _ => {}
            }
            return Ok(());
        }
        match (&split.phase, body) {
            (_, Body::Refused { refusal: Refusal::Stale, .. }) => return Err(Gone),
            (Phase::Complete(_), Body::Refused { refusal: Refusal::GenerationChanged, .. } | Body::SplitDone { .. }) => {
                return Err(Gone);
            }
            (Phase::Build(_), Body::Refused { refusal: Refusal::NameTaken, .. } | Body::Modified { .. }) => {
                self.say_keys(context, split, true);
            }
            (Phase::Begin(_), &Body::SplitBegun { low, high, .. }) if self.checkpoint_refusal().is_none() => {
                (split.low, split.high, split.phase) = (low, high, Phase::Checkpoint);
                self.begin_checkpoint(context, false);
            }
            (&Phase::Seal(kind, _), &Body::SealedIs { extent, length, .. }) => {
                if self.list(kind).open_last().is_some_and(|last| last.extent == extent) {
                    self.list(kind).seal_last(length);
                    self.seal_next(context, split, &KINDS[kind as usize + 1..]);
                }
            }
            _ => {}
        }
        Ok(())
    }

    /// What is not answered is asked again, with its number.
    pub fn split_gives_up(&mut self, context: &mut Context) {
        let Some(mut split) = self.split.take() else { return };
        match split.phase {
            Phase::Begin(request) => self.send_begin(context, &split.key, request),
            Phase::Seal(kind, request) => {
                if let Some(extent) = self.list(kind).open_last().map(|last| last.extent) {
                    context.send(Actor::Manager, Body::SealExtent { extent, request });
                }
            }
            Phase::Build(request) => self.send_build(context, &split, request),
            Phase::Keys { ref mut client, .. } => client.give_up(context),
            Phase::Complete(request) => self.send_complete(context, request),
            Phase::Checkpoint | Phase::Queue | Phase::Record => {}
        }
        self.split = Some(split);
    }
}
