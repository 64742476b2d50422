//! One range at a server: its transactions, and whose an answer is.
use crate::bytes::{Bytes, Group};
use crate::cache::Cache;
use crate::checkpoint::Checkpoint;
use crate::client::{Client, News};
use crate::effects::tell;
use crate::formats::{Index, Item, Position, Region};
use crate::keys::{is_key, Keys};
use crate::log::{self, Formed};
use crate::packet::{Actor, Body, Change, Place, Places, Request};
use crate::reads::{PlaceRead, WaitingGet};
use crate::refusal::Refusal;
use crate::server::Context;
use crate::split::Split;
use crate::streams::{Kind, StreamList};
use crate::table::{Layer, MAX_VALUE};
use std::collections::VecDeque;
use std::rc::Rc;

const MOST_CHANGES: usize = 32;
const MOST_WAITING: usize = 1_024;
/// The memory table takes no transaction once it has so many bytes.
const FULL_TABLE: usize = 67_108_864;

/// The range goes, and those who wait there are told so.
pub struct Gone;

pub type Step = Result<(), Gone>;

#[derive(Clone, Copy, PartialEq, Eq)]
pub enum Stage {
    Opening,
    Checking,
    Reading(usize),
    Indexing(usize),
    Confirming,
    Serving,
}

/// Whether a range takes transactions, takes none until those that wait are done, or is paused.
#[derive(Clone, Copy, PartialEq, Eq)]
pub enum Pause {
    Off,
    AfterQueue,
    On,
}

/// What the records of a range's metadata say together, with the oldest index first.
pub struct Said {
    pub keys: Keys,
    pub indexes: Vec<(Place, Keys)>,
    pub regions: Vec<Region>,
    pub next: u64,
}

impl Said {
    pub fn first() -> Said {
        let open = Region { start: Position::default(), end: None, next: 1, keys: Keys::all() };
        Said { keys: Keys::all(), indexes: Vec::new(), regions: vec![open], next: 1 }
    }

    /// The record of the next number is taken.
    pub fn take(&mut self, item: Item) {
        self.next += 1;
        match item {
            Item::Ranges(keys) => self.keys = keys,
            Item::Checkpoint { combine, index, position, next } => {
                if combine {
                    self.indexes.clear();
                }
                self.indexes.push((index, self.keys.clone()));
                self.regions = vec![Region { start: position, end: None, next, keys: self.keys.clone() }];
            }
            Item::SplitStatus { .. } => {}
        }
    }
}

/// An index that counts within some keys.
pub struct Installed {
    pub keys: Keys,
    pub index: Index,
}

pub struct Transaction {
    from: Actor,
    request: Request,
    changes: Rc<[Change]>,
}

/// The group that is being appended: its first number, how many transactions it has, which are the first that wait, how long its
/// text is, and how many bytes it has.
pub struct Out {
    pub first: u64,
    count: usize,
    text: u32,
    size: u32,
}

pub struct Range {
    pub number: u64,
    pub generation: u64,
    pub until: u64,
    pub pause: Pause,
    pub stage: Stage,
    /// The number of the opening or of the confirmation that is out.
    pub asked: Option<Request>,
    pub metadata: Client,
    pub log: Client,
    pub rows: Client,
    pub blob_data: StreamList,
    pub said: Said,
    pub regions: Vec<Region>,
    pub live: Layer,
    pub fixed: Option<Layer>,
    /// The oldest first.
    pub indexes: Vec<Installed>,
    pub reading: Option<PlaceRead>,
    pub checkpoint: Option<Box<Checkpoint>>,
    pub next: u64,
    pub position: Position,
    pub queue: VecDeque<Transaction>,
    pub out: Option<Out>,
    pub gets: Vec<WaitingGet>,
    pub cache: Cache,
    pub split: Option<Box<Split>>,
}

impl Range {
    /// A range whose streams are opened for a generation.
    pub fn assigned(context: &mut Context, number: u64, generation: u64, until: u64) -> Range {
        let request = context.request();
        context.send(Actor::Manager, Body::OpenStreams { range: number, generation, request });
        let client = |kind| Client::new(number, kind, generation, StreamList::default());
        Range {
            number,
            generation,
            until,
            pause: Pause::Off,
            stage: Stage::Opening,
            asked: Some(request),
            metadata: client(Kind::Metadata),
            log: client(Kind::Log),
            rows: client(Kind::RowData),
            blob_data: StreamList::default(),
            said: Said::first(),
            regions: Vec::new(),
            live: Layer::default(),
            fixed: None,
            indexes: Vec::new(),
            reading: None,
            checkpoint: None,
            next: 1,
            position: Position::default(),
            queue: VecDeque::new(),
            out: None,
            gets: Vec::new(),
            cache: Cache::new(),
            split: None,
        }
    }

    pub fn has_ended(&self, context: &Context) -> bool {
        self.until <= context.server.moment
    }

    /// Those who wait are told that this server does not hold the range.
    pub fn refuse_all(&self, context: &mut Context) {
        let transactions = self.queue.iter().map(|transaction| (transaction.from, transaction.request));
        let gets = self.gets.iter().map(|get| (get.from, get.request));
        transactions.chain(gets).for_each(|(to, request)| context.refuse(to, request, Refusal::NotOwner));
    }

    /// The replicas of an extent that values, pages and indexes stand in.
    pub fn places_of(&self, extent: u64) -> Option<Places> {
        let log = self.log.list.places_of(extent);
        log.or_else(|| self.blob_data.places_of(extent)).or_else(|| self.rows.list.places_of(extent))
    }

    // ---- transactions

    fn transact_refusal(&self, context: &Context, changes: &[Change]) -> Option<Refusal> {
        let is_too_large = |change: &Change| change.value.as_ref().is_some_and(|value| value.len() > MAX_VALUE);
        if self.stage != Stage::Serving {
            Some(Refusal::Loading)
        } else if self.pause != Pause::Off {
            Some(Refusal::Paused)
        } else if self.has_ended(context) {
            Some(Refusal::LeaseEnded)
        } else if changes.is_empty() || changes.len() > MOST_CHANGES {
            Some(Refusal::TooLarge)
        } else if changes.iter().any(|change| !is_key(&change.key)) {
            Some(Refusal::BadKey)
        } else if changes.iter().any(is_too_large) {
            Some(Refusal::TooLarge)
        } else if changes.iter().any(|change| !self.said.keys.has(&change.key)) {
            Some(Refusal::OutOfRange)
        } else if self.queue.len() >= MOST_WAITING || self.table_size() >= FULL_TABLE {
            Some(Refusal::Busy)
        } else {
            None
        }
    }

    fn table_size(&self) -> usize {
        self.live.size + self.fixed.as_ref().map_or(0, |fixed| fixed.size)
    }

    pub fn transact(&mut self, context: &mut Context, from: Actor, request: Request, changes: &Rc<[Change]>) -> Step {
        if let Some(refusal) = self.transact_refusal(context, changes) {
            context.refuse(from, request, refusal);
            return Ok(());
        }
        self.queue.push_back(Transaction { from, request, changes: Rc::clone(changes) });
        self.form(context);
        Ok(())
    }

    /// Appends the next group to the log, where none is out and a transaction waits.
    fn form(&mut self, context: &mut Context) {
        if self.out.is_some() || self.queue.is_empty() {
            return;
        }
        let first = self.next;
        let waiting = self.queue.iter().take(context.server.batch).map(|transaction| &*transaction.changes);
        let Formed { group, count, text } = log::form(context.effects, first, waiting);
        self.next += count as u64;
        for number in first..self.next {
            tell!(context.effects, "began {} {} {number}", self.number, self.generation);
        }
        self.out = Some(Out { first, count, text, size: group.size() });
        self.log.append(context, group);
    }

    /// The group that was out stands in the log: its transactions are applied and told, and the next group is formed.
    fn commit(&mut self, context: &mut Context, extent: u64, offset: u32) {
        let Some(Out { first, count, text, size }) = self.out.take() else { return };
        let mut large = offset + text;
        for (transaction, number) in self.queue.drain(..count).zip(first..) {
            for Change { key, value } in transaction.changes.iter() {
                self.live.put(key.clone(), log::kept(value.as_ref(), extent, &mut large));
            }
            tell!(context.effects, "done {} {} {number}", self.number, self.generation);
            context.send(transaction.from, Body::Committed { request: transaction.request, number });
        }
        self.position = Position { index: self.log.list.end() - 1, offset: offset + size };
        self.form(context);
    }

    /// No transaction waits, and none is being appended.
    pub fn is_drained(&self) -> bool {
        self.queue.is_empty()
    }

    // ---- answers

    /// What follows an answer; none where the range does not wait for it.
    pub fn answer(&mut self, context: &mut Context, request: Request, body: &Body) -> Option<Step> {
        if self.asked == Some(request) {
            return Some(self.load_reply(context, body));
        }
        if self.metadata.awaits(request) {
            return Some(self.metadata_reply(context, body));
        }
        if self.log.awaits(request) {
            return Some(self.log_reply(context, body));
        }
        if self.rows.awaits(request) {
            return Some(self.rows_reply(context, body));
        }
        let reads = self.reading.as_ref().is_some_and(|read| read.request == request);
        let trims = self.checkpoint.as_ref().is_some_and(|checkpoint| checkpoint.awaits_trim(request));
        if !reads && !trims && !self.gets.iter().any(|get| get.awaits(request)) {
            return None;
        }
        if let Body::Refused { refusal: Refusal::Stale, .. } = body {
            return Some(Err(Gone));
        }
        Some(match body {
            Body::Bytes { bytes, .. } if reads => self.bytes_reply(context, place_of(body)?, bytes),
            Body::Bytes { bytes, .. } => self.get_reply(context, request, place_of(body)?, bytes),
            Body::Trimmed { .. } => self.trimmed(),
            _ => Ok(()),
        })
    }

    fn metadata_reply(&mut self, context: &mut Context, body: &Body) -> Step {
        let news = self.metadata.reply(context, body);
        match news {
            Some(News::Fenced) => Err(Gone),
            Some(News::Appended { .. }) => self.record_stands(context),
            Some(news) => self.metadata_news(context, news, groups_of(body)),
            None => Ok(()),
        }
    }

    fn log_reply(&mut self, context: &mut Context, body: &Body) -> Step {
        let news = self.log.reply(context, body);
        match news {
            Some(News::Fenced) => Err(Gone),
            Some(News::Appended { extent, offset }) => {
                self.commit(context, extent, offset);
                Ok(())
            }
            Some(news) => self.log_news(context, news, groups_of(body)),
            None => Ok(()),
        }
    }

    fn rows_reply(&mut self, context: &mut Context, body: &Body) -> Step {
        match self.rows.reply(context, body) {
            Some(News::Fenced) => Err(Gone),
            Some(News::Appended { extent, offset }) => self.rows_stand(context, extent, offset),
            _ => Ok(()),
        }
    }

    /// The bytes of an index, or of a page that a checkpoint merges.
    fn bytes_reply(&mut self, context: &mut Context, place: Place, bytes: &Bytes) -> Step {
        let Some(read) = self.reading.as_ref().filter(|read| read.place == place) else { return Ok(()) };
        if read.page { self.page_comes(context, bytes) } else { self.index_comes(context, bytes) }
    }

    /// What is not answered is asked again.
    pub fn give_up(&mut self, context: &mut Context) {
        self.ask_load_again(context);
        self.log.give_up(context);
        self.metadata.give_up(context);
        self.rows.give_up(context);
        self.read_again(context);
        self.trim_again(context);
        self.get_again(context);
    }
}

fn groups_of(body: &Body) -> &[Group] {
    match body {
        Body::Groups { groups, .. } => groups,
        _ => &[],
    }
}

/// Where the bytes of an answer stand.
fn place_of(body: &Body) -> Option<Place> {
    match body {
        Body::Bytes { extent, offset, bytes, .. } => Some(Place { extent: *extent, offset: *offset, length: bytes.len() as u32 }),
        _ => None,
    }
}
